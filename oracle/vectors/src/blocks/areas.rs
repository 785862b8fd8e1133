//! Random areas: inside a screen, across its edges and outside.

use oracle::Rect;

use super::words::four_on;
use crate::random::{below, next};

/// Returns an area made from x and the next seven random numbers.
pub fn area(x: u32, columns: u16, rows: u16) -> Rect {
    let y = four_on(x);
    Rect {
        x: start(x, columns),
        y: start(y, rows),
        width: size(next(next(x)), columns),
        height: size(next(next(y)), rows),
    }
}

/// Returns an area with at least half of the screen's columns and rows, made from x and the next
/// three random numbers.
pub fn roomy(x: u32, columns: u16, rows: u16) -> Rect {
    let y = next(next(x));
    Rect {
        x: below(x, 4) as u16,
        y: below(y, 2) as u16,
        width: 1 + columns / 2 + below(next(x), u32::from(columns)) as u16,
        height: 1 + rows / 2 + below(next(y), u32::from(rows)) as u16,
    }
}

/// Returns the start of an area along a row or column.
fn start(x: u32, cells: u16) -> u16 {
    match below(x, 16) {
        0..4 => 0,
        4 => cells - 1,
        5 => cells,
        6 => 65_535,
        _ => below(next(x), u32::from(cells)) as u16,
    }
}

/// Returns the size of an area along a row or column.
fn size(x: u32, cells: u16) -> u16 {
    match below(x, 16) {
        0 => 0,
        1..4 => 1,
        4..6 => 2,
        6 => cells,
        7 => cells + 1,
        8 => 65_535,
        _ => 1 + below(next(x), u32::from(cells)) as u16,
    }
}
