//! The records of a text and of titles: glyphs, heads, and the lines that heads open.

#[derive(Debug, Clone, Copy, PartialEq, Eq)]
pub enum Alignment {
    Left,
    Center,
    Right,
}

#[derive(Debug, Clone, Copy, PartialEq, Eq)]
pub enum TitlePosition {
    Top,
    Bottom,
}

/// How many cells an ambiguous glyph is read as.
#[derive(Debug, Clone, Copy, PartialEq, Eq)]
pub enum AmbiguousWidth {
    Narrow = 1,
    Wide = 2,
}

/// "0 | symbol 21 | width 3 | whitespace 1 | style 6".
pub mod glyph {
    use super::AmbiguousWidth;

    /// Width code of an ambiguous glyph.
    const AMBIGUOUS: u32 = 7;

    /// Largest width.
    pub const WIDEST: u32 = 6;

    pub fn symbol(glyph: u32) -> u32 {
        glyph >> 10 & 0x1f_ffff
    }

    pub fn width_code(glyph: u32) -> u32 {
        glyph >> 7 & 0b111
    }

    /// Returns the width of a glyph as read.
    pub fn width(glyph: u32, ambiguous: AmbiguousWidth) -> u32 {
        let code = width_code(glyph);
        if code == AMBIGUOUS { ambiguous as u32 } else { code }
    }

    pub fn is_whitespace(glyph: u32) -> bool {
        glyph >> 6 & 1 == 1
    }

    pub fn style(glyph: u32) -> u8 {
        (glyph & 0b11_1111) as u8
    }
}

/// "1 | alignment 2 | position 2 | 27 zeros".
pub mod head {
    use super::{Alignment, TitlePosition};

    pub fn is_head(record: u32) -> bool {
        record >> 31 == 1
    }

    pub fn position(head: u32) -> u32 {
        head >> 27 & 0b11
    }

    pub fn zeros(head: u32) -> u32 {
        head & 0x7ff_ffff
    }

    /// Returns the alignment in a head, or the default alignment.
    pub fn resolve(head: u32, default_alignment: Alignment) -> Alignment {
        match head >> 29 & 0b11 {
            0 => Alignment::Left,
            1 => Alignment::Center,
            2 => Alignment::Right,
            _ => default_alignment,
        }
    }

    /// Returns the position in a title's head, or the block's.
    pub fn resolve_position(head: u32, default_position: TitlePosition) -> TitlePosition {
        match position(head) {
            0 => TitlePosition::Top,
            1 => TitlePosition::Bottom,
            _ => default_position,
        }
    }
}

/// Returns the number of records after a head that belong to its line.
pub fn line_length(after: &[u32]) -> usize {
    after.iter().position(|&record| head::is_head(record)).unwrap_or(after.len())
}

/// Returns the heads of records that start with one, each with the glyphs of its line.
pub fn lines(records: &[u32]) -> impl Iterator<Item = (u32, &[u32])> {
    let mut left = records;
    std::iter::from_fn(move || {
        let (&head, after) = left.split_first()?;
        let (glyphs, rest) = after.split_at(line_length(after));
        left = rest;
        Some((head, glyphs))
    })
}
