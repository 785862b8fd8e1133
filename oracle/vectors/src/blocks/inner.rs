//! Inner areas: every vertical axis with every kind of titles. Horizontal axes are random, and each
//! occurs.

use oracle::{AmbiguousWidth, Block, Borders, Padding, Rect};

use super::Case;
use super::settings::{framed, position};
use super::titles::titles;
use crate::random::{below, seed};

/// Block settings along one axis: borders and padding at both ends of an area, and its start and
/// size.
struct Axis {
    before: bool,
    after: bool,
    place: u16,
    size: u16,
    padding: u16,
    padding_after: u16,
}

/// Numbers at both ends of the 16-bit range.
const ENDS: [u16; 7] = [0, 1, 2, 3, 65_533, 65_534, 65_535];

/// Paddings. The sum of two large ones overflows 16 bits.
const PADDINGS: [u16; 5] = [0, 1, 2, 40_000, 65_535];

/// Returns the axis with a number. The first 4,900 are all different.
fn axis(number: u32) -> Axis {
    let number = number as usize;
    Axis {
        before: number % 2 == 1,
        after: number / 2 % 2 == 1,
        place: ENDS[number / 4 % 7],
        size: ENDS[number / 28 % 7],
        padding: PADDINGS[number / 196 % 5],
        padding_after: PADDINGS[number / 980 % 5],
    }
}

/// Returns the case with a number.
pub fn case(number: u32) -> Case {
    let x = seed(number);
    let across = axis(below(x, 4_900));
    let down = axis(number / 10);
    Case {
        block: block(number / 5, &across, &down, x),
        area: Rect::new(across.place, down.place, across.size, down.size),
        titles: titles(number % 5, x),
        ambiguous: AmbiguousWidth::Narrow,
        columns: 0,
        rows: 0,
        styles: Vec::new(),
        cells: Vec::new(),
    }
}

/// Returns a block whose default title position is the one with the number `default_position`.
fn block(default_position: u32, across: &Axis, down: &Axis, x: u32) -> Block {
    let borders =
        Borders { top: down.before, right: across.after, bottom: down.after, left: across.before };
    Block {
        padding: Padding::new(
            across.padding,
            across.padding_after,
            down.padding,
            down.padding_after,
        ),
        titles_position: position(default_position),
        ..framed(borders, x)
    }
}
