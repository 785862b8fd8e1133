//! Records of the test texts.

/// The width code of an ambiguous glyph.
pub const AMBIGUOUS: u32 = 7;

/// Returns a head with an alignment.
pub fn head(alignment: u32) -> u32 {
    1 << 31 | alignment << 29
}

/// Returns a glyph whose symbol and style are taken from x.
pub fn glyph(width: u32, space: u32, x: u32) -> u32 {
    (x % (1 << 21)) << 10 | width << 7 | space << 6 | (x % 64)
}
