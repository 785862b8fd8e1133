//! Random notices with many wide glyphs in small text areas, so that many have a glyph that starts
//! inside and runs past the right edge.

use crate::input::{Call, Input};
use crate::knobs::SYMBOLS;
use crate::random::Random;
use crate::raw::{Area, Text};
use crate::records::{AMBIGUOUS, glyph, head};

const STYLES: u32 = 5;

const CALLS: &[Call] =
    &[Call::Pair, Call::DrawFrame, Call::DrawText, Call::Tally, Call::ListLines, Call::Pages];

/// A notice to draw and to ask for its pages; its text is tallied and listed at the inner width.
/// The text drawn alone goes into the notice's area, not into the inner one.
pub fn notice(random: &mut Random) -> (Input, &'static [Call]) {
    let mut input = Input::plain();
    input.styles = (0..STYLES).map(|_| random.word() & !0xfff_ffff).collect();
    let [width, height] = [1 + random.below16(12), 1 + random.below16(4)];
    frame(random, &mut input);
    around(random, &mut input, width, height);
    input.text = text(random, width.into());
    input.settings = settings(random);
    input.limit = width;
    input.trim = match input.settings.wrap {
        0 => random.below(2) as u8,
        wrap => wrap - 1,
    };
    input.list = (0..input.text.len() + 3).map(|_| random.word()).collect();
    (input, CALLS)
}

/// No borders, all four, or any; no padding, or any.
fn frame(random: &mut Random, input: &mut Input) {
    for (symbol, knob) in (i64::from(b'A')..).zip(SYMBOLS) {
        (knob.set)(input, symbol);
    }
    let sides = random.below(3);
    let mut side = || u8::from(sides == 1 || sides == 2 && random.once_in(2));
    let block = &mut input.block;
    [block.border_top, block.border_right] = [side(), side()];
    [block.border_bottom, block.border_left] = [side(), side()];
    let padded = random.once_in(3);
    let mut padding = |most: u16| if padded { random.below16(most + 1) } else { 0 };
    [block.padding_left, block.padding_right] = [padding(3), padding(3)];
    [block.padding_top, block.padding_bottom] = [padding(1), padding(1)];
    let mut style = || random.below(STYLES) as u8;
    [block.border_style, block.style] = [style(), style()];
}

/// Sets an area whose inner area has a width and a height, and a screen with columns at its right
/// or without; then the area may run past the screen. No cell has the blank symbol.
fn around(random: &mut Random, input: &mut Input, width: u16, height: u16) {
    let block = &input.block;
    let [left, right] = [block.border_left, block.border_right].map(u16::from);
    let [top, bottom] = [block.border_top, block.border_bottom].map(u16::from);
    let (x, y) = (random.below16(3), random.below16(2));
    let width = width + left + right + block.padding_left + block.padding_right;
    let height = height + top + bottom + block.padding_top + block.padding_bottom;
    let [room, past] = match random.below(8) {
        0..4 => [1 + random.below16(6), 0],
        4..7 => [0, 0],
        _ => [0, 1 + random.below16(4)],
    };
    input.columns = (x + width + room).into();
    input.rows = (y + height + random.below16(2)).into();
    input.area = Area { x, y, width: width + past, height };
    let odd_symbol = 1 << 43;
    input.cells = (0..input.columns * input.rows).map(|_| random.word() | odd_symbol).collect();
}

/// One to four text lines. Two in three have a glyph that runs past the limit.
fn text(random: &mut Random, limit: u32) -> Vec<u32> {
    let mut records = Vec::new();
    for _ in 0..1 + random.below(4) {
        records.push(head(random.below(4), 0));
        let overruns = limit > 1 && !random.once_in(3);
        if overruns {
            records.extend(overrunning(random, limit).into_iter().map(|width| any(random, width)));
        }
        let others = if overruns && !random.once_in(3) { 0 } else { random.below(13) };
        records.extend((0..others).map(|_| {
            let width = width(random, limit);
            any(random, width)
        }));
    }
    records
}

/// Returns the widths of glyphs of which the last starts before the limit and ends after it, if a
/// word is all that they are.
fn overrunning(random: &mut Random, limit: u32) -> Vec<u32> {
    let start = limit - 1 - random.below(5.min(limit - 1));
    let mut widths = Vec::new();
    let mut left = start;
    while left > 0 {
        let width = 1 + random.below(left.min(6));
        widths.push(width);
        left -= width;
    }
    let least = limit - start + 1;
    widths.push(least + random.below(limit.min(6) - least + 1));
    widths
}

/// Returns a width code: 2 to 6 in half of the glyphs, most of these no wider than the limit.
fn width(random: &mut Random, limit: u32) -> u32 {
    match random.below(10) {
        0 => 0,
        1..3 => 1,
        3..5 => AMBIGUOUS,
        5 => 2 + random.below(5),
        _ => 2 + random.below(limit.clamp(2, 6) - 1),
    }
}

/// Returns a glyph of a width; one in five is whitespace, and width 1 or 2 may become ambiguous.
fn any(random: &mut Random, width: u32) -> u32 {
    let width = if [1, 2].contains(&width) && random.once_in(3) { AMBIGUOUS } else { width };
    let whitespace = u32::from(random.once_in(5));
    let symbol = u32::from(b'a') + random.below(26);
    glyph(symbol, width, whitespace, random.below(STYLES))
}

/// Unwrapped in one notice of six, else wrapped, or wrapped and trimmed.
fn settings(random: &mut Random) -> Text {
    Text {
        scroll: if random.once_in(3) { random.below16(4) } else { 0 },
        column: random.below16(6),
        style: random.below(STYLES) as u8,
        text_style: random.below(STYLES) as u8,
        alignment: random.below(3) as u8,
        wrap: if random.once_in(6) { 0 } else { 1 + random.below(2) as u8 },
        ambiguous: 1 + random.below(2) as u8,
    }
}
