//! Stand-in for `unicode-segmentation`: splitting a symbol into graphemes.
//!
//! Document 01, 'Packed fields': "Each symbol is one grapheme". So a symbol is never split. An
//! empty one, which `LineTruncator` substitutes for a swallowed glyph, has no grapheme.

/// Adds `graphemes` to strings.
pub trait UnicodeSegmentation {
    /// Returns the graphemes of a symbol: itself.
    fn graphemes(&self, is_extended: bool) -> impl Iterator<Item = &str>;
}

impl UnicodeSegmentation for str {
    fn graphemes(&self, _is_extended: bool) -> impl Iterator<Item = &str> {
        (!self.is_empty()).then_some(self).into_iter()
    }
}
