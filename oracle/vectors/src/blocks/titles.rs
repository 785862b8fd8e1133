//! Titles of the cases for the inner area: up to two, of up to three records each.

use std::iter::successors;

use crate::random::{below, next};

/// Returns the titles of a kind: none, one, or two.
pub fn titles(kind: u32, seed: u32) -> Vec<u32> {
    let count = match kind {
        0 => 0,
        1..4 => 1 + below(seed, 3),
        _ => 4 + below(seed, 3),
    };
    let numbers = successors(Some(seed), |&x| Some(next(x)));
    (0..count).zip(numbers).map(|(place, x)| record(place, kind, x)).collect()
}

/// Returns the record at index `place`. The first title is at the top, the bottom or the block's
/// position, the second at the bottom. Any 31-bit number is a glyph.
fn record(place: u32, kind: u32, x: u32) -> u32 {
    match place {
        0 => head((kind + 2) % 3, x),
        3 => head(1, x),
        _ => x >> 1,
    }
}

/// Returns the head of a right title in a block whose default alignment is right.
pub fn right_head(position: u32, x: u32) -> u32 {
    1 << 31 | (2 + below(x, 2)) << 29 | position << 27
}

/// Returns a title head of random alignment.
pub fn head(position: u32, x: u32) -> u32 {
    1 << 31 | below(x, 4) << 29 | position << 27
}
