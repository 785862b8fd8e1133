//! Notices to draw, in blocks of every kind, with and without titles.

use oracle::{Notice, Rect};

use super::Case;
use super::settings::{notice, padding};
use super::texts::text;
use crate::blocks::areas::{area, roomy};
use crate::blocks::drawn::block;
use crate::blocks::many_titles::many_titles;
use crate::blocks::words::{four_on, words};
use crate::random::{below, next, seed};

/// Returns the case with a number on a screen of up to 11 × 9 cells, with a text of up to 64
/// records. Most clipped glyphs occur here.
pub fn narrow(number: u32) -> Case {
    let a = seed(number);
    let b = next(a);
    case(number, 4 + below(a, 8) as u16, 4 + below(b, 6) as u16, 64, next(b))
}

/// Returns the case with a number on a screen of up to 40 × 10 cells, with a text of up to 64
/// records, not that of `narrow`.
pub fn small(number: u32) -> Case {
    let a = seed(seed(number));
    let b = next(a);
    case(number, 1 + below(a, 40) as u16, 4 + below(b, 7) as u16, 64, next(b))
}

/// Returns the case with a number on a screen of 120 × 30 cells, with a text of up to 1,024
/// records.
pub fn large(number: u32) -> Case {
    case(number, 120, 30, 1_024, seed(number))
}

/// Returns the case with a number on a screen, with a text of up to `most` records, made from x and
/// the random numbers after it. Its block uses the first few of the 64 styles, its text any.
fn case(number: u32, columns: u16, rows: u16, most: u32, x: u32) -> Case {
    let y = next(x);
    let z = seed(next(y));
    let v = seed(next(z));
    let styles = 1 + below(x, 8);
    Case {
        notice: framed(number, styles, y, next(v)),
        area: notice_area(v, y, columns, rows),
        text: text(most, seed(v)),
        titles: many_titles(titles(z), 16, false, styles, four_on(z)),
        columns,
        rows,
        styles: words(64, 28, seed(x)),
        cells: words(u32::from(columns) * u32::from(rows), 0, seed(y)),
    }
}

/// Returns the notice with a number, whose block's style numbers are below `styles`. The block is
/// made from the random numbers from the eighth after x on, the rest from y and those after it.
fn framed(number: u32, styles: u32, x: u32, y: u32) -> Notice {
    let block = block(number, styles, 4, padding(y), four_on(four_on(x)));
    notice(block, four_on(y))
}

/// Returns an area: one in eight is any, the others have room for text.
fn notice_area(chosen: u32, x: u32, columns: u16, rows: u16) -> Rect {
    match below(chosen, 8) {
        0 => area(x, columns, rows),
        _ => roomy(x, columns, rows),
    }
}

/// Returns the number of titles: none in half of the cases.
fn titles(x: u32) -> u32 {
    match below(x, 8) {
        0..4 => 0,
        4..7 => 1 + below(next(x), 3),
        _ => below(next(x), 17),
    }
}
