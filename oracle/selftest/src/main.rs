//! Checks the oracle on the worked examples of document 01, and of C-11, C-14, C-15 and C-17 in
//! document 02; on those of C-14, C-15 and C-17 the crate `rules` too.
//!
//! Prints `ok NAME` or `FAILED NAME: expected .. got ..` for each, then `N passed, M failed`; the
//! exit status is 1 if one failed.

mod ambiguous;
mod apart;
mod frame;
mod halved;
mod listlines;
mod marks;
mod notation;
mod notices;
mod report;
mod screen;
mod styles;
mod wrapping;

use std::process::ExitCode;

use report::Report;

fn main() -> ExitCode {
    let mut report = Report::default();
    wrapping::run(&mut report);
    frame::run(&mut report);
    notices::run(&mut report);
    styles::run(&mut report);
    listlines::run(&mut report);
    ambiguous::run(&mut report);
    halved::run(&mut report);
    marks::run(&mut report);
    apart::run(&mut report);
    report.finish()
}
