//! Random texts of up to 16,384 records, at limits 1 to 20, 80 and 4,096, and columns below 8,192.

use super::case::{Case, Manner, alignment, ambiguous_of, text};
use crate::random::{below, next, seed};

/// One record in this many is a head.
const HEADS: [u32; 4] = [3, 20, 300, 16_384];

/// Exclusive bounds of the column: longer lines are scrolled further.
const COLUMNS: [u32; 4] = [8, 64, 1_024, 8_192];

/// Returns the case with a number.
pub fn case(number: u32) -> Case {
    let a = seed(number);
    let b = next(a);
    let c = next(b);
    let d = next(c);
    let e = next(d);
    let f = next(e);
    let kind = below(a, 4) as usize;
    let manner = Manner { heads: HEADS[kind], widths: 1 + below(b, 8), spaces: 1 + below(c, 12) };
    Case {
        number,
        text: text(length(number, d), &manner, f),
        ambiguous: ambiguous_of(number / 6),
        default_alignment: alignment(number % 3),
        limit: limit(below(e, 26)),
        trim: number.is_multiple_of(2),
        column: column(number, COLUMNS[kind], f),
    }
}

/// Returns the column: 0 for one text in five.
fn column(number: u32, end: u32, x: u32) -> u16 {
    if number.is_multiple_of(5) { 0 } else { below(x, end) as u16 }
}

fn limit(number: u32) -> u16 {
    match number {
        0..20 => number as u16 + 1,
        20..23 => 80,
        _ => 4_096,
    }
}

/// Returns the number of records: the maximum that a call accepts for one text in eight.
fn length(number: u32, x: u32) -> u32 {
    if (number / 2).is_multiple_of(8) { 16_384 } else { below(x, 16_385) }
}
