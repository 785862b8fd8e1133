//! Random notices on small screens.

use oracle::{
    Alignment, AmbiguousWidth, Block, BorderSet, Borders, Effect, Notice, Padding, Rect, Shadow,
    TitlePosition, Wrap,
};

use crate::random::Random;

/// The inputs of one drawing.
#[derive(Debug, Clone)]
pub struct Case {
    pub columns: u32,
    pub rows: u32,
    pub text: Vec<u32>,
    pub titles: Vec<u32>,
    pub area: Rect,
    pub notice: Notice,
    pub styles: Vec<u64>,
    pub cells: Vec<u64>,
}

pub fn case(random: &mut Random) -> Case {
    let (columns, rows) = (1 + random.below(18), 1 + random.below(10));
    let count = 1 + random.below(4);
    let styles = (0..count).map(|_| random.word() & !0xfff_ffff).collect();
    let titles = 0..random.below(5);
    let titles = titles.flat_map(|_| title(random, count)).collect();
    Case {
        columns,
        rows,
        text: text(random, count, 14),
        titles,
        area: rect(random),
        notice: notice(random, count as u8),
        styles,
        cells: (0..columns * rows).map(|_| random.word()).collect(),
    }
}

/// Whether records hold a glyph of width code 7.
pub fn holds_ambiguous(records: &[u32]) -> bool {
    records.iter().any(|record| record >> 31 == 0 && record >> 7 & 7 == 7)
}

pub const READINGS: [AmbiguousWidth; 2] = [AmbiguousWidth::Narrow, AmbiguousWidth::Wide];

const ALIGNMENTS: [Alignment; 3] = [Alignment::Left, Alignment::Center, Alignment::Right];

/// Returns a letter, or occasionally any symbol.
fn symbol(random: &mut Random) -> u32 {
    if random.once_in(8) { random.below(1 << 21) } else { 97 + random.below(26) }
}

/// Returns a glyph, mostly of width code 1 or 7, occasionally of any.
fn glyph(random: &mut Random, styles: u32) -> u32 {
    let width = match random.below(10) {
        0 => 0,
        1 => 2,
        2 => random.below(8),
        3..6 => 7,
        _ => 1,
    };
    let whitespace = u32::from(random.once_in(3));
    symbol(random) << 10 | width << 7 | whitespace << 6 | random.below(styles)
}

/// Returns up to four text lines of up to `most` glyphs.
pub fn text(random: &mut Random, styles: u32, most: u32) -> Vec<u32> {
    let mut records = Vec::new();
    for _ in 0..random.below(5) {
        records.push(1 << 31 | random.below(4) << 29);
        records.extend((0..random.below(most + 1)).map(|_| glyph(random, styles)));
    }
    records
}

fn title(random: &mut Random, styles: u32) -> Vec<u32> {
    let mut records = vec![1 << 31 | random.below(4) << 29 | random.below(3) << 27];
    records.extend((0..random.below(7)).map(|_| glyph(random, styles)));
    records
}

/// Returns a number below `small`, or occasionally one near the end of the 16-bit range.
fn size(random: &mut Random, small: u16) -> u16 {
    match random.below(40) {
        0 => u16::MAX - random.below16(4),
        _ => random.below16(small),
    }
}

/// Returns a rectangle that mostly intersects the screen; occasionally it is far off or empty.
fn rect(random: &mut Random) -> Rect {
    let [x, y] = if random.once_in(2) { [0, 0] } else { [size(random, 5), size(random, 3)] };
    let [least_width, least_height] = if random.once_in(4) { [0, 0] } else { [5, 3] };
    let width = size(random, 12).saturating_add(least_width);
    Rect::new(x, y, width, size(random, 6).saturating_add(least_height))
}

/// Returns an area for a text, one in four each: on the screen, over its right or lower edge or
/// both, off it, or without a cell.
pub fn text_area(random: &mut Random, columns: u32, rows: u32) -> Rect {
    let [columns, rows] = [columns as u16, rows as u16];
    let kind = random.below(4);
    let [x, y] = [random.below16(columns), random.below16(rows)];
    let [right, below] = [columns - x, rows - y];
    let [width, height] = [1 + random.below16(right), 1 + random.below16(below)];
    let inside = Rect::new(x, y, width, height);
    let side = random.below(3);
    let [across, down] = [side != 1, side != 0];
    match kind {
        0 => inside,
        1 => Rect {
            width: if across { size(random, 6).saturating_add(right + 1) } else { width },
            height: if down { size(random, 6).saturating_add(below + 1) } else { height },
            ..inside
        },
        2 => Rect {
            x: if across { size(random, 3).saturating_add(columns) } else { x },
            y: if down { size(random, 3).saturating_add(rows) } else { y },
            ..inside
        },
        _ => Rect {
            width: if across { 0 } else { width },
            height: if down { 0 } else { height },
            ..inside
        },
    }
}

fn notice(random: &mut Random, styles: u8) -> Notice {
    let wrap = match random.below(3) {
        0 => Wrap::Off { column: size(random, 5) },
        1 => Wrap::On { trim: false },
        _ => Wrap::On { trim: true },
    };
    Notice {
        block: block(random, styles),
        style: random.below(styles.into()) as u8,
        text_style: random.below(styles.into()) as u8,
        alignment: random.pick(&ALIGNMENTS),
        wrap,
        ambiguous: random.pick(&READINGS),
        scroll: if random.once_in(4) { size(random, 4) } else { 0 },
    }
}

fn block(random: &mut Random, styles: u8) -> Block {
    let style = |random: &mut Random| random.below(styles.into()) as u8;
    let framed = random.once_in(2);
    let side = |random: &mut Random| framed || random.once_in(3);
    let padding = |random: &mut Random| if random.once_in(8) { size(random, 3) } else { 0 };
    Block {
        borders: Borders {
            top: side(random),
            right: side(random),
            bottom: side(random),
            left: side(random),
        },
        border_set: BorderSet {
            top_left: symbol(random),
            top_right: symbol(random),
            bottom_left: symbol(random),
            bottom_right: symbol(random),
            vertical_left: symbol(random),
            vertical_right: symbol(random),
            horizontal_top: symbol(random),
            horizontal_bottom: symbol(random),
        },
        border_style: style(random),
        style: style(random),
        padding: Padding::new(padding(random), padding(random), padding(random), padding(random)),
        titles_style: style(random),
        titles_alignment: random.pick(&ALIGNMENTS),
        titles_position: random.pick(&[TitlePosition::Top, TitlePosition::Bottom]),
        shadow: shadow(random, styles),
    }
}

fn shadow(random: &mut Random, styles: u8) -> Shadow {
    let offset = |random: &mut Random| match random.below(10) {
        0 => random.pick(&[i32::MIN, i32::MAX, 65_535, -65_535]),
        _ => random.below(9) as i32 - 4,
    };
    match random.below(3) {
        0 => Shadow::Absent,
        effect => Shadow::Present {
            effect: match effect {
                1 => Effect::Overlay,
                _ => Effect::Symbol(symbol(random)),
            },
            style: random.below(styles.into()) as u8,
            x: offset(random),
            y: offset(random),
        },
    }
}
