//! What becomes of a glyph of a composed line at an edge.

/// `Halved` starts inside and runs past the edge, `Outside` starts at the edge or past it; both are
/// clipped.
#[derive(Clone, Copy)]
pub enum Place {
    ZeroWidth,
    Placed,
    Halved,
    Outside,
}

impl Place {
    /// Returns the place of a glyph by its start column and its width.
    pub fn of_glyph(edge: usize, start: usize, width: usize) -> Self {
        match width {
            0 => Self::ZeroWidth,
            _ if start + width <= edge => Self::Placed,
            _ if start < edge => Self::Halved,
            _ => Self::Outside,
        }
    }
}
