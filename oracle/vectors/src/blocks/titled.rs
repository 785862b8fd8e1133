//! Blocks to draw with up to 16 titles, of every alignment and position or all at the right.

use oracle::{Padding, Rect};

use super::Case;
use super::areas::{area, roomy};
use super::drawn::block;
use super::many_titles::many_titles;
use super::words::{four_on, words};
use crate::random::{below, next, seed};
use crate::texts::case::ambiguous_of;

/// Returns the case with a number on a screen of up to 40 × 5 cells, with titles of up to 16
/// glyphs, all right titles if `right` is set.
fn few_cells(number: u32, right: bool) -> Case {
    let a = seed(number);
    let b = next(a);
    case(number, 1 + below(a, 40) as u16, 1 + below(b, 5) as u16, 16, right, next(b))
}

/// Returns such a case with titles of every alignment.
pub fn small(number: u32) -> Case {
    few_cells(number, false)
}

/// Returns such a case with right titles alone: it uses the numbers of blocks whose default
/// alignment is right, 64 in each 192. The remainder keeps them in 32 bits.
pub fn right(number: u32) -> Case {
    few_cells(number % 4_096 / 64 * 192 + 128 + number % 64, true)
}

/// Returns the case with a number on a screen of 512 × 3 cells, with titles of up to 256 glyphs.
pub fn wide(number: u32) -> Case {
    case(number, 512, 3, 256, false, seed(number))
}

/// Returns the case with a number on a screen, with titles of up to `most` glyphs, all right titles
/// if `right` is set, made from x and the random numbers after it.
fn case(number: u32, columns: u16, rows: u16, most: u32, right: bool, x: u32) -> Case {
    let y = next(x);
    let z = seed(next(y));
    let styles = 1 + below(x, 8);
    let glyphs = most >> below(next(next(z)), 4);
    Case {
        block: block(number, styles, 4, Padding::uniform(1), four_on(four_on(y))),
        area: titled_area(number / 384, y, columns, rows),
        titles: many_titles(count(z), glyphs, right, styles, four_on(z)),
        ambiguous: ambiguous_of(below(x, 2)),
        columns,
        rows,
        styles: words(styles, 28, seed(x)),
        cells: words(u32::from(columns) * u32::from(rows), 0, seed(y)),
    }
}

/// Returns an area: one in four is any, the others have room for titles.
fn titled_area(number: u32, x: u32, columns: u16, rows: u16) -> Rect {
    match number % 4 {
        0 => area(x, columns, rows),
        _ => roomy(x, columns, rows),
    }
}

/// Returns the number of titles.
fn count(x: u32) -> u32 {
    match below(x, 8) {
        0..4 => below(next(x), 5),
        4 => 16,
        _ => below(next(x), 17),
    }
}
