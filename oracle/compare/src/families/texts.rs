//! Every text of a few glyphs.

use super::{Digits, asked, cells, read};
use crate::input::{Call, Input};
use crate::raw::Area;
use crate::records::{AMBIGUOUS, glyph, head};

/// Width 1, space, width 2, width 3, zero-width solid, zero-width space, space of width 2,
/// ambiguous, as (width code, whitespace); one more kind is a centred head.
const KINDS: [(u32, u32); 8] =
    [(1, 0), (1, 1), (2, 0), (3, 0), (0, 0), (0, 1), (2, 1), (AMBIGUOUS, 0)];
const ALL_KINDS: u64 = KINDS.len() as u64 + 1;

/// Returns the number of texts with up to `most` records after the first head.
fn texts(most: u32) -> u64 {
    (0..=most).map(|length| ALL_KINDS.pow(length)).sum()
}

/// Returns the text with a number, shortest first. Its glyphs have styles 0 and 1.
fn records(mut number: u64) -> Vec<u32> {
    let mut length = 0;
    while number >= ALL_KINDS.pow(length) {
        number -= ALL_KINDS.pow(length);
        length += 1;
    }
    let mut digits = Digits(number);
    let mut records = vec![head(3, 0)];
    for place in 0..length {
        let kind = digits.below(ALL_KINDS) as usize;
        records.push(match KINDS.get(kind) {
            Some(&(width, whitespace)) => {
                glyph(u32::from(b'a') + place, width, whitespace, place % 2)
            }
            None => head(1, 0),
        });
    }
    records
}

const READINGS: u64 = 2;
const LIMITS: u64 = 6;
const WRAPS: u64 = 3;

pub fn count(most: u32) -> u64 {
    texts(most) * READINGS * LIMITS * WRAPS
}

/// A text at a limit of 0 to 5, unwrapped, wrapped and trimmed, with a list longer than its lines.
pub fn text(number: u64) -> (Input, &'static [Call]) {
    let mut digits = Digits(number);
    let mut input = Input::plain();
    read(&mut input, &mut digits);
    input.limit = digits.below(LIMITS) as u16;
    input.settings.wrap = digits.below(WRAPS) as u8;
    input.settings.alignment = (digits.0 % 3) as u8;
    input.trim = u8::from(input.settings.wrap == 2);
    input.text = records(digits.0);
    input.list = vec![0x5a5a_5a5a_5a5a_5a5a; input.text.len() + 3];
    let calls: &[Call] = if input.settings.wrap == 0 {
        &[Call::LineCount, Call::LineWidth]
    } else {
        &[Call::ListLines, Call::Tally, Call::LineCount]
    };
    asked(input, calls)
}

/// Unwrapped at a column, wrapped, trimmed.
const METHODS: [(u8, u16); 6] = [(0, 0), (0, 1), (0, 2), (0, 3), (1, 0), (2, 0)];
const WIDTHS: u64 = 4;
const HEIGHTS: u64 = 2;
const SCROLLS: u64 = 3;

pub fn notice_count(most: u32) -> u64 {
    texts(most) * READINGS * 3 * METHODS.len() as u64 * WIDTHS * HEIGHTS * SCROLLS * 2
}

/// A text of up to so many records after the first head is drawn alone too.
const ALONE: u32 = 3;

/// A text without a frame, in an area with free columns on its right on the screen, or without. The
/// frame call, which takes no text, is made alone for the first text only.
pub fn notice(number: u64) -> (Input, &'static [Call]) {
    let mut digits = Digits(number);
    let mut input = Input::plain();
    read(&mut input, &mut digits);
    input.settings.alignment = digits.below(3) as u8;
    (input.settings.wrap, input.settings.column) = digits.of(&METHODS);
    let [width, height] = [1 + digits.below(WIDTHS), 1 + digits.below(HEIGHTS)];
    input.area = Area { x: 1, y: 1, width: width as u16, height: height as u16 };
    input.settings.scroll = digits.below(SCROLLS) as u16;
    (input.columns, input.rows) = (2 + width as u32 - digits.below(2) as u32, 4);
    let text_number = digits.0;
    input.text = records(text_number);
    input.cells = cells(input.columns * input.rows);
    input.styles = vec![0, 1 << 63 | 5 << 55 | 3 << 37 | 4 << 28, 1 << 54 | 6 << 46];
    (input.settings.style, input.settings.text_style) = (2, 1);
    let calls: &[Call] = match text_number {
        0 => &[Call::Pair, Call::Pages, Call::DrawText, Call::DrawFrame],
        _ if text_number < texts(ALONE) => &[Call::Pair, Call::Pages, Call::DrawText],
        _ => &[Call::Pair, Call::Pages],
    };
    asked(input, calls)
}
