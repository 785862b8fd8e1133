//! Every set of borders with small rectangles and with those at the end of the 16-bit range; pairs
//! of titles.

use super::{Digits, FRAMED, asked, cells, read};
use crate::input::{Call, Input};
use crate::raw::Area;
use crate::records::{AMBIGUOUS, glyph, head};

/// No title, one at the top, one at the bottom, or one at the block's position, the bottom.
fn one_title(digits: &mut Digits) -> Vec<u32> {
    match digits.below(4) {
        0 => Vec::new(),
        position => vec![head(3, position as u32 - 1), letter(b'T', 1), letter(b'W', 2)],
    }
}

fn letter(letter: u8, width: u32) -> u32 {
    glyph(letter.into(), width, 0, 1)
}

fn borders(input: &mut Input, digits: &mut Digits) {
    let block = &mut input.block;
    for side in [
        &mut block.border_top,
        &mut block.border_right,
        &mut block.border_bottom,
        &mut block.border_left,
    ] {
        *side = digits.below(2) as u8;
    }
}

const STARTS: [u16; 5] = [0, 1, 2, 65_534, 65_535];
const SIZES: [u16; 6] = [0, 1, 2, 3, 65_534, 65_535];
const PADDINGS: [[u16; 4]; 8] = [
    [0, 0, 0, 0],
    [1, 0, 0, 0],
    [0, 1, 0, 0],
    [0, 0, 1, 0],
    [0, 0, 0, 1],
    [65_535, 65_535, 65_535, 65_535],
    [65_533, 2, 2, 65_533],
    [40_000, 40_000, 1, 1],
];

pub const INNER: u64 = 16 * 4 * 5 * 5 * 6 * 6 * 8;

/// An area, and the measures of an empty text, which depend on the space that the block takes.
pub fn inner(number: u64) -> (Input, &'static [Call]) {
    let mut digits = Digits(number);
    let mut input = Input::plain();
    borders(&mut input, &mut digits);
    input.block.titles_position = 1;
    input.titles = one_title(&mut digits);
    let block = &mut input.block;
    [block.padding_left, block.padding_right, block.padding_top, block.padding_bottom] =
        digits.of(&PADDINGS);
    let first = digits.0 == 0;
    let [x, y] = [digits.of(&STARTS), digits.of(&STARTS)];
    let [width, height] = [digits.of(&SIZES), digits.of(&SIZES)];
    input.area = Area { x, y, width, height };
    let calls: &[Call] =
        if first { &[Call::Inner, Call::LineCount, Call::LineWidth] } else { &[Call::Inner] };
    (input, calls)
}

/// Kind, x and y of a shadow.
const SHADOWS: [(u8, i32, i32); 5] =
    [(0, 0, 0), (1, 1, 1), (2, -1, 1), (2, 0, 0), (1, i32::MIN, i32::MAX)];

pub const BLOCKS: u64 = 16 * 4 * 5 * 6 * 5 * 6 * 5;

/// A block inside a screen of 4 × 3 cells, across its edges and outside.
pub fn block(number: u64) -> (Input, &'static [Call]) {
    let mut digits = Digits(number);
    let mut input = on_screen(4, 3);
    borders(&mut input, &mut digits);
    input.block.titles_position = 1;
    input.titles = one_title(&mut digits);
    let block = &mut input.block;
    (block.shadow, block.shadow_x, block.shadow_y) = digits.of(&SHADOWS);
    let [x, y] = [digits.below(6), digits.below(5)].map(|start| start as u16);
    let [width, height] = [digits.below(6), digits.below(5)].map(|size| size as u16);
    input.area = Area { x, y, width, height };
    (input, FRAMED)
}

/// Titles as letters with their width codes.
const TITLES: [&[(u8, u32)]; 9] = [
    &[],
    &[(b'a', 1)],
    &[(b'a', 1), (b'b', 1)],
    &[(b'W', 2), (b'a', 1)],
    &[(b'a', 1), (b'W', 2)],
    &[(b'Z', 0), (b'a', 1), (b'b', 1), (b'c', 1)],
    &[(b'T', 3)],
    &[(b'A', AMBIGUOUS)],
    &[(b'a', 1), (b'A', AMBIGUOUS), (b'B', AMBIGUOUS)],
];

pub const PAIRS: u64 = 2 * (4 * 9) * (4 * 9) * 3 * 8 * 4;

/// Two titles of every alignment in up to seven columns, with and without side borders, each
/// ambiguous width read narrow and wide.
pub fn pair(number: u64) -> (Input, &'static [Call]) {
    let mut digits = Digits(number);
    let mut input = on_screen(8, 2);
    read(&mut input, &mut digits);
    for _ in 0..2 {
        input.titles.push(head(digits.below(4) as u32, 2));
        let glyphs = digits.of(&TITLES);
        input.titles.extend(glyphs.iter().map(|&(symbol, width)| letter(symbol, width)));
    }
    input.block.titles_alignment = digits.below(3) as u8;
    input.block.border_left = digits.below(2) as u8;
    input.block.border_right = digits.below(2) as u8;
    input.area = Area { x: 0, y: 0, width: digits.below(8) as u16, height: 2 };
    asked(input, FRAMED)
}

/// A screen whose cells all differ, five styles, and a distinct symbol for each part.
fn on_screen(columns: u32, rows: u32) -> Input {
    let mut input = Input::plain();
    (input.columns, input.rows) = (columns, rows);
    input.cells = cells(columns * rows);
    let colours = |number: u64| 1 << 63 | number << 55 | number << 37 | (number + 1) << 28;
    input.styles = (0..5).map(colours).collect();
    for (symbol, knob) in (i64::from(b'1')..).zip(crate::knobs::SYMBOLS) {
        (knob.set)(&mut input, symbol);
    }
    let block = &mut input.block;
    block.shadow_symbol = u32::from(b'S');
    (block.style, block.border_style, block.titles_style, block.shadow_style) = (0, 2, 3, 4);
    input.settings.style = 1;
    input
}
