//! A few texts in every kind of area: on a screen of 4 × 3 cells, across its edges, off it and
//! without a cell.

use super::{Digits, asked, cells, read};
use crate::input::{Call, Input};
use crate::raw::Area;
use crate::records::{AMBIGUOUS, glyph, head};

/// `|` opens a line, `_` is a space, W has two cells, T three, Z none, A is ambiguous, others have
/// one cell.
const TEXTS: [&str; 9] =
    ["", "|", "|abcdefgh", "|ab_cd_e", "|aWbW", "|TaA", "|A_bAA", "|a||bc|d", "|ZWWx_y"];

fn record((place, letter): (usize, char)) -> u32 {
    let (width, whitespace) = match letter {
        '|' => return head(3, 0),
        '_' => (1, 1),
        'W' => (2, 0),
        'T' => (3, 0),
        'Z' => (0, 0),
        'A' => (AMBIGUOUS, 0),
        _ => (1, 0),
    };
    glyph(letter.into(), width, whitespace, place as u32 % 2)
}

const COLUMNS: [u16; 7] = [0, 1, 3, 4, 5, 65_534, 65_535];
const ROWS: [u16; 5] = [0, 1, 2, 3, 65_535];
const WIDTHS: [u16; 7] = [0, 1, 2, 3, 4, 5, 65_535];
const HEIGHTS: [u16; 5] = [0, 1, 2, 3, 65_535];

pub const COUNT: u64 = 2 * 3 * 3 * 9 * (7 * 5) * (7 * 5);

/// A text alone, and in a notice without a frame, unwrapped, wrapped and trimmed.
pub fn text(number: u64) -> (Input, &'static [Call]) {
    let mut digits = Digits(number);
    let mut input = Input::plain();
    read(&mut input, &mut digits);
    input.settings.wrap = digits.below(3) as u8;
    input.settings.alignment = digits.below(3) as u8;
    input.text = digits.of(&TEXTS).chars().enumerate().map(record).collect();
    let [x, y] = [digits.of(&COLUMNS), digits.of(&ROWS)];
    let [width, height] = [digits.of(&WIDTHS), digits.of(&HEIGHTS)];
    input.area = Area { x, y, width, height };
    (input.columns, input.rows) = (4, 3);
    input.cells = cells(12);
    input.styles = vec![0, 1 << 63 | 5 << 55 | 3 << 37 | 4 << 28, 1 << 54 | 6 << 46];
    (input.settings.style, input.settings.text_style) = (2, 1);
    asked(input, &[Call::DrawText, Call::Pair])
}
