//! Document 01's notation for small texts: "`_` space, W width 2, Z zero-width solid, z zero-width
//! space, other letters one cell, bar between lines." A is ambiguous: width code 7. T has three
//! cells, S is a space of two.

use oracle::ComposedLine;

/// The blank symbol.
pub const BLANK: u32 = 32;

/// Returns the head of a text line, or of a title at the top: 0 left, 1 centre, 2 right, 3 none.
pub const fn head(alignment: u32) -> u32 {
    1 << 31 | alignment << 29
}

/// Returns the record of a letter, with style number 0.
pub const fn glyph(letter: char) -> u32 {
    let (symbol, width, whitespace) = match letter {
        '_' => (BLANK, 1, 1),
        'W' => ('W' as u32, 2, 0),
        'T' => ('T' as u32, 3, 0),
        'S' => ('S' as u32, 2, 1),
        'Z' => ('Z' as u32, 0, 0),
        'z' => ('z' as u32, 0, 1),
        'A' => ('A' as u32, 7, 0),
        other => (other as u32, 1, 0),
    };
    symbol << 10 | width << 7 | whitespace << 6
}

/// Returns the records of one text line.
pub fn line(alignment: u32, letters: &str) -> Vec<u32> {
    let glyphs = letters.chars().map(glyph);
    std::iter::once(head(alignment)).chain(glyphs).collect()
}

/// Returns the letter of a symbol.
pub fn letter(symbol: u32) -> char {
    match symbol {
        BLANK => '_',
        other => char::from_u32(other).unwrap_or('?'),
    }
}

/// Formats composed lines as letters, with a bar between lines.
pub fn shown(text: &[u32], lines: &[ComposedLine]) -> String {
    let letters = |line: &ComposedLine| {
        let records = line.glyphs.iter().map(|&number| text[number as usize]);
        records.map(|record| letter(record >> 10)).collect::<String>()
    };
    lines.iter().map(letters).collect::<Vec<_>>().join("|")
}
