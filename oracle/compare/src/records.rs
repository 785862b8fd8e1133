//! Records, entries, and the letters of glyphs.

/// "Width code 7 now means ambiguous."
pub const AMBIGUOUS: u32 = 7;

/// "0 | symbol 21 | width 3 | whitespace 1 | style 6"
pub const fn glyph(symbol: u32, width: u32, whitespace: u32, style: u32) -> u32 {
    symbol << 10 | width << 7 | whitespace << 6 | style
}

/// "1 | alignment 2 | position 2 | 27 zeros"
pub const fn head(alignment: u32, position: u32) -> u32 {
    1 << 31 | alignment << 29 | position << 27
}

pub const fn is_head(record: u32) -> bool {
    record >> 31 == 1
}

/// Whether a record is a glyph of width code 7.
pub const fn is_ambiguous(record: u32) -> bool {
    !is_head(record) && record >> 7 & 7 == AMBIGUOUS
}

/// Returns the style number of a glyph.
pub const fn style(glyph: u32) -> u32 {
    glyph % 64
}

/// "A blank cell has symbol 32 and zeros."
pub const BLANK: u64 = 32 << 43;

/// The first symbol that is refused.
pub const SYMBOLS: u32 = 1 << 21;

/// Whether an entry has C-17's mark: "the first of the 16 zero bits of a composed line".
pub const fn is_marked(entry: u64) -> bool {
    entry >> 15 & 1 == 1
}
