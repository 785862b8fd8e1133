//! Compares the proved archive with the original Rust, call by call and field by field.
//!
//! Usage: `compare [short] [--cases N] [--seed S] [--threads T]`. Every short input is tried, then
//! random ones until there are N cases. A case is one call on one input, and everything that it
//! returns and writes is compared. C-15's two calls for a frame and for a text are made alone, and
//! as a pair, which is one case. If the Rust has no valid answer, the crate `rules`, an independent
//! implementation of document 01 and of document 02's C-11, C-14, C-15 and C-17, gives it. The exit
//! status is 1 if a case differs.
#![deny(unsafe_code)]

mod answer;
mod arguments;
mod check;
mod expected;
mod families;
mod input;
mod kinds;
mod knobs;
mod ours;
#[path = "../../crosscheck/src/random.rs"]
mod random;
#[allow(unsafe_code)]
#[path = "../../../examples/rust/src/raw.rs"]
mod raw;
mod records;
mod refusals;
mod report;
mod run;
mod scenes;
mod settings;
mod show;
mod shrink;
mod ways;

use std::process::ExitCode;

use arguments::Arguments;
use report::Report;

fn main() -> ExitCode {
    let arguments = match Arguments::read(std::env::args().skip(1)) {
        Ok(arguments) => arguments,
        Err(wrong) => {
            eprintln!("{wrong}\nusage: compare [short] [--cases N] [--seed S] [--threads T]");
            return ExitCode::from(2);
        }
    };
    println!("{arguments}");
    let report = Report::new();
    run::run(&arguments, &report);
    report.finish()
}
