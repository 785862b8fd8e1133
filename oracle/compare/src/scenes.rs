//! Random inputs for all calls.

use oracle::Outcome;

use crate::input::Input;
use crate::knobs::SYMBOLS;
use crate::random::Random;
use crate::raw::{Area, Text};
use crate::records::{AMBIGUOUS, head};
use crate::{settings, ways};

/// Maximum sizes of an input.
#[derive(Clone, Copy)]
struct Sizes {
    columns: u32,
    rows: u32,
    records: u32,
    /// Approximate maximum number of glyphs in a text line.
    line: u32,
    titles: u32,
    title: u32,
    limit: u32,
}

const SMALL: Sizes =
    Sizes { columns: 12, rows: 6, records: 24, line: 12, titles: 4, title: 6, limit: 10 };
const MIDDLE: Sizes =
    Sizes { columns: 80, rows: 25, records: 400, line: 80, titles: 16, title: 20, limit: 60 };
/// For blocks with titles of their own, and without a text.
const WIDE: Sizes =
    Sizes { columns: 120, rows: 4, records: 0, line: 1, titles: 0, title: 0, limit: 1 };
const LARGE: Sizes = Sizes {
    columns: 512,
    rows: 256,
    records: 16_384,
    line: 900,
    titles: 16,
    title: 256,
    limit: 400,
};

/// Returns a mostly small, occasionally large input; one in five is at or past an accepted bound.
pub fn scene(random: &mut Random) -> Input {
    let sizes = match random.below(3_000) {
        0 => LARGE,
        1..=60 => MIDDLE,
        _ => SMALL,
    };
    let mut input = sized(random, sizes);
    if random.once_in(5) {
        ways::some(&mut input, random);
    }
    input
}

pub fn small(random: &mut Random) -> Input {
    sized(random, SMALL)
}

/// Returns a block whose titles are all at the right, sixteen of them in half of the blocks.
pub fn right_titles(random: &mut Random) -> Input {
    let mut input = sized(random, WIDE);
    let styles = input.styles.len() as u32;
    let count = if random.once_in(2) { 16 } else { 1 + random.below(16) };
    let most = random.pick(&[2, 6, 20, 300]);
    let title = |_| right_title(random, styles, most);
    input.titles = (0..count).flat_map(title).collect();
    input.block.titles_alignment = 2;
    input
}

/// Returns a title of any width up to about `most`, at the right by its own alignment or the
/// block's.
fn right_title(random: &mut Random, styles: u32, most: u32) -> Vec<u32> {
    let mut records = vec![head(2 + random.below(2), random.below(3))];
    let mut left = random.below(most + 1);
    while left > 0 || random.once_in(4) {
        let ambiguous = random.once_in(3);
        let width = if ambiguous { AMBIGUOUS } else { random.below(6.min(left) + 1) };
        let whitespace = u32::from(random.once_in(3));
        let style = random.below(styles);
        records.push(crate::records::glyph(symbol(random), width, whitespace, style));
        left = left.saturating_sub(if ambiguous { 1 } else { width });
    }
    records
}

fn sized(random: &mut Random, sizes: Sizes) -> Input {
    let mut input = Input::plain();
    let styles = if random.once_in(50) { 64 } else { 1 + random.below(4) };
    input.styles = (0..styles).map(|_| random.word() & !0xfff_ffff).collect();
    (input.columns, input.rows) = (1 + random.below(sizes.columns), 1 + random.below(sizes.rows));
    input.cells = (0..input.columns * input.rows).map(|_| random.word()).collect();
    input.text = text(random, styles, sizes);
    let titles = if random.once_in(2) { 0 } else { random.below(sizes.titles + 1) };
    input.titles = (0..titles).flat_map(|_| title(random, styles, sizes.title)).collect();
    let (x, width) = side(random, input.columns);
    let (y, height) = side(random, input.rows);
    input.area = Area { x, y, width, height };
    input.settings = notice(random, styles, sizes.rows);
    block(random, &mut input, styles);
    input.limit = match random.below(12) {
        0 => random.below(4_097),
        1 => 4_096,
        _ => random.below(sizes.limit),
    } as u16;
    input.trim = random.below(2) as u8;
    list(random, &mut input);
    input
}

/// Returns a letter, or occasionally a very small or very large symbol.
fn symbol(random: &mut Random) -> u32 {
    match random.below(12) {
        0 => random.pick(&[0, 1, 31, 32, 0x1f_fffe, 0x1f_ffff]),
        _ => 97 + random.below(26),
    }
}

/// Returns a glyph, mostly of width code 1 or 7, occasionally of any.
pub fn glyph(random: &mut Random, styles: u32) -> u32 {
    let width = match random.below(10) {
        0 => 0,
        1 => 2,
        2 => random.below(8),
        3..6 => AMBIGUOUS,
        _ => 1,
    };
    let whitespace = u32::from(random.once_in(3));
    crate::records::glyph(symbol(random), width, whitespace, random.below(styles))
}

/// Returns a text of up to the maximum number of records, occasionally the maximum, sometimes none.
fn text(random: &mut Random, styles: u32, sizes: Sizes) -> Vec<u32> {
    let most = if random.once_in(10) { sizes.records } else { random.below(sizes.records + 1) };
    let line = 1 + random.below(sizes.line);
    let record = |place| match place {
        0 => head(random.below(4), 0),
        _ if random.once_in(line) => head(random.below(4), 0),
        _ => glyph(random, styles),
    };
    (0..most).map(record).collect()
}

fn title(random: &mut Random, styles: u32, most: u32) -> Vec<u32> {
    let mut records = vec![head(random.below(4), random.below(3))];
    records.extend((0..random.below(most + 1)).map(|_| glyph(random, styles)));
    records
}

/// Returns a number below `end`, or occasionally one near the end of the 16-bit range.
fn size(random: &mut Random, end: u32) -> u16 {
    match random.below(40) {
        0 => u16::MAX - random.below16(4),
        _ => random.below(end) as u16,
    }
}

/// Returns the start and length of an area along one axis of the screen.
fn side(random: &mut Random, screen: u32) -> (u16, u16) {
    let start = if random.once_in(2) { 0 } else { size(random, screen / 2 + 2) };
    let length = if random.once_in(2) { screen as u16 } else { size(random, screen + 4) };
    (start, length)
}

fn notice(random: &mut Random, styles: u32, rows: u32) -> Text {
    Text {
        scroll: if random.once_in(3) { size(random, rows) } else { 0 },
        column: if random.once_in(2) { size(random, 6) } else { 0 },
        style: random.below(styles) as u8,
        text_style: random.below(styles) as u8,
        alignment: random.below(3) as u8,
        wrap: random.below(3) as u8,
        ambiguous: 1 + random.below(2) as u8,
    }
}

fn block(random: &mut Random, input: &mut Input, styles: u32) {
    for knob in SYMBOLS {
        (knob.set)(input, symbol(random).into());
    }
    let framed = random.once_in(3);
    let mut side = || u8::from(framed || random.once_in(3));
    let block = &mut input.block;
    [block.border_top, block.border_right] = [side(), side()];
    [block.border_bottom, block.border_left] = [side(), side()];
    let mut padding = || if random.once_in(8) { size(random, 3) } else { 0 };
    [block.padding_left, block.padding_right] = [padding(), padding()];
    [block.padding_top, block.padding_bottom] = [padding(), padding()];
    let mut style = || random.below(styles) as u8;
    [block.border_style, block.style] = [style(), style()];
    [block.titles_style, block.shadow_style] = [style(), style()];
    block.titles_alignment = random.below(3) as u8;
    block.titles_position = random.below(2) as u8;
    block.shadow = random.below(3) as u8;
    block.shadow_symbol = symbol(random);
    let mut offset = || match random.below(10) {
        0 => random.pick(&[i32::MIN, i32::MAX, 65_535, -65_535]),
        _ => random.below(9) as i32 - 4,
    };
    [block.shadow_x, block.shadow_y] = [offset(), offset()];
}

/// Sets a list that is longer than the lines, or occasionally exactly long enough or one too short.
fn list(random: &mut Random, input: &mut Input) {
    let mut length = input.text.len() + 3;
    if random.once_in(8) {
        let Input { ref text, limit, trim, .. } = *input;
        let default_alignment = settings::alignment(input.settings.alignment);
        let ambiguous = settings::ambiguous(input.settings);
        let lines = oracle::wrapped_lines(text, ambiguous, default_alignment, limit, trim == 1);
        if let Outcome::Value(lines) = lines {
            length = lines.len().saturating_sub(random.below(2) as usize);
        }
    }
    input.list = (0..length).map(|_| random.word()).collect();
}
