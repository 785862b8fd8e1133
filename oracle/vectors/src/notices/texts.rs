//! Texts of the test notices.

use crate::random::{below, next};
use crate::texts::case::{self, Manner};

/// Returns a text of up to `most` records, made from x and the random numbers after it. Its text
/// lines have at most about `most / 2` records on average.
pub fn text(most: u32, x: u32) -> Vec<u32> {
    let b = next(x);
    let c = next(b);
    let d = next(c);
    let manner =
        Manner { heads: 2 + below(x, most / 2), widths: widths(b), spaces: 2 + below(c, 6) };
    case::text(length(d, most), &manner, next(next(d)))
}

/// Returns the exclusive bound of width codes: mostly codes up to 3, any code once in eight; the
/// ambiguous one comes besides.
fn widths(x: u32) -> u32 {
    match below(x, 8) {
        0..2 => 2,
        2..5 => 3,
        5..7 => 4,
        _ => 8,
    }
}

/// Returns the number of records in a text: `most`, none, or a number between.
fn length(x: u32, most: u32) -> u32 {
    match below(x, 16) {
        0..4 => most,
        4 => 0,
        _ => below(next(x), most + 1),
    }
}
