//! A second implementation of document 01 and of document 02's C-11, C-14, C-15 and C-17, sentence
//! by sentence, on plain numbers and lists. It shares nothing with the stand-ins, reads width code 7
//! and marks and packs composed lines itself; only the types of settings and counts are the
//! oracle's. `crosscheck` compares it with the Rust, and `vectors` and `compare` use its cells if a
//! glyph is clipped.

pub mod apart;
pub mod compose;
pub mod frame;
pub mod measure;
pub mod notice;
pub mod place;
pub mod screen;
pub mod titles;

use oracle::AmbiguousWidth;

/// A glyph with its record number: "0 | symbol 21 | width 3 | whitespace 1 | style 6". Its width is
/// the one read, in cells.
#[derive(Debug, Clone, Copy, PartialEq)]
pub struct Glyph {
    pub number: u32,
    pub symbol: u64,
    pub width: i64,
    pub space: bool,
    pub style: usize,
}

/// A line and the alignment and position of its head: "1 | alignment 2 | position 2 | 27 zeros".
pub struct Line {
    pub alignment: u32,
    pub position: u32,
    pub glyphs: Vec<Glyph>,
}

/// Splits records into lines; "a head opens a line".
pub fn lines(records: &[u32], ambiguous: AmbiguousWidth) -> Vec<Line> {
    let mut lines: Vec<Line> = Vec::new();
    for (number, &record) in (0..).zip(records) {
        if record / (1 << 31) == 1 {
            lines.push(Line {
                alignment: record / (1 << 29) % 4,
                position: record / (1 << 27) % 4,
                glyphs: Vec::new(),
            });
        } else if let Some(line) = lines.last_mut() {
            line.glyphs.push(glyph(number, record, ambiguous));
        }
    }
    lines
}

/// Decodes a glyph. C-11: "Width code 7 now means ambiguous, and each call that reads widths takes
/// an enum setting, narrow (1) or wide (2)."
pub fn glyph(number: u32, record: u32, ambiguous: AmbiguousWidth) -> Glyph {
    let width = match (record / 128 % 8, ambiguous) {
        (7, AmbiguousWidth::Narrow) => 1,
        (7, AmbiguousWidth::Wide) => 2,
        (code, _) => i64::from(code),
    };
    Glyph {
        number,
        symbol: u64::from(record / 1024),
        width,
        space: record / 64 % 2 == 1,
        style: (record % 64) as usize,
    }
}

/// "A list's width is its sum."
pub fn width(glyphs: &[Glyph]) -> i64 {
    glyphs.iter().map(|glyph| glyph.width).sum()
}

/// "All sums and differences here are held in 16 bits."
pub fn held(number: i64) -> i64 {
    number.clamp(0, 65_535)
}
