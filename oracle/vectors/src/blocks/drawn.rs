//! Blocks to draw, with every set of borders, with and without a shadow.

use oracle::{Block, Padding};

use super::Case;
use super::areas::area;
use super::settings::{alignment, borders, framed, position};
use super::shadows::shadow;
use super::words::{four_on, words};
use crate::random::{below, next, seed};
use crate::texts::case::ambiguous_of;

/// Returns the case with a number on a screen of up to 8 × 6 cells.
pub fn small(number: u32) -> Case {
    let a = seed(number);
    let b = next(a);
    case(number, 1 + below(a, 8) as u16, 1 + below(b, 6) as u16, 4, next(b))
}

/// Returns the case with a number on a screen of 512 × 256 cells.
pub fn large(number: u32) -> Case {
    case(number, 512, 256, 128, seed(number))
}

/// Returns the case with a number on a screen, made from x and the random numbers after it.
fn case(number: u32, columns: u16, rows: u16, reach: u32, x: u32) -> Case {
    let y = next(x);
    let styles = 1 + below(x, 8);
    Case {
        block: block(number, styles, reach, Padding::uniform(1), four_on(four_on(y))),
        area: area(y, columns, rows),
        titles: Vec::new(),
        ambiguous: ambiguous_of(below(x, 2)),
        columns,
        rows,
        styles: words(styles, 28, seed(x)),
        cells: words(u32::from(columns) * u32::from(rows), 0, seed(y)),
    }
}

/// Returns the block with a number, made from x and the random numbers after it. Its style numbers
/// are below `styles`, and its shadow's offsets are mostly at most `reach`.
pub fn block(number: u32, styles: u32, reach: u32, padding: Padding, x: u32) -> Block {
    let a = four_on(four_on(x));
    let b = next(a);
    Block {
        border_style: below(a, styles) as u8,
        style: below(b, styles) as u8,
        padding,
        titles_style: below(four_on(b), styles) as u8,
        titles_alignment: alignment(number / 64),
        titles_position: position(number / 192),
        shadow: shadow(number / 16 % 4, next(b), styles, reach),
        ..framed(borders(number % 16), x)
    }
}
