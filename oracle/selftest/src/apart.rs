//! C-15: "Split the drawing of a notice into two calls: one draws the frame, paragraph style first,
//! and answers the inner area (four zeros where refused), one lays paragraph style and text into a
//! given area, met with the screen first." Each example is asked of the Rust and of the crate
//! `rules`.

mod calls;
mod frames;
mod pairs;
mod texts;

use crate::report::Report;

pub fn run(report: &mut Report) {
    frames::run(report);
    texts::run(report);
    pairs::run(report);
}
