//! Compares the crate `rules`, an independent implementation of document 01 and of C-11, C-14, C-15
//! and C-17, with the Rust. `rules` reads each width code 7 itself, the Rust is given the 1 or 2 read
//! for it. C-14: "Inputs with such a glyph leave the cell comparison with the crate, while composed
//! lines remain in it." `rules` marks composed lines itself, the Rust's are given C-17's mark "by
//! counting lines per input line". C-15's two calls are compared each alone, and together with the
//! drawing of a notice at once.
//!
//! Usage: `crosscheck [SEED]`. Short texts are tried exhaustively, long texts and whole notices at
//! random. Prints what was compared, what was skipped and why, and the smallest input of each kind
//! of difference; the exit status is 1 if there is one.

mod apart;
mod cases;
mod laid;
mod notices;
mod random;
mod report;
mod texts;

use std::process::ExitCode;

use random::Random;
use report::Report;

fn main() -> ExitCode {
    let seed = std::env::args().nth(1).and_then(|seed| seed.parse().ok());
    let mut random = Random::new(seed.unwrap_or(1));
    let mut report = Report::default();
    texts::exhaustive(&mut report);
    texts::of_several_lines(&mut report);
    texts::at_random(&mut report, &mut random, 50_000);
    notices::at_random(&mut report, &mut random, 100_000);
    apart::at_random(&mut report, &mut random, 100_000);
    report.finish()
}
