//! Which glyphs of a composed line are placed and which are clipped. C-14: "From now on a glyph
//! that starts inside and runs past the right edge is clipped: its first cell gets the blank
//! symbol, then the text style and the glyph's own as before, and it counts as clipped in drawing
//! and tally."

use crate::{Glyph, width};

/// How a glyph lies to the right edge of the area, or to the limit in the tally.
#[derive(Debug, Clone, Copy, PartialEq, Eq)]
pub enum Place {
    /// It has no cell.
    ZeroWidth,
    /// It is placed: none of its cells is past the edge.
    Inside,
    /// It is clipped: it starts inside and runs past the edge.
    Halved,
    /// It is clipped: it starts at or past the edge.
    Outside,
}

fn place(start: i64, width: i64, edge: i64) -> Place {
    match width {
        0 => Place::ZeroWidth,
        _ if start >= edge => Place::Outside,
        _ if start + width > edge => Place::Halved,
        _ => Place::Inside,
    }
}

/// Returns each glyph of a line with its start and place. "In a composed line a glyph starts at the
/// sum of the widths of its line's glyphs before it; drawing adds the start column."
pub fn places(
    glyphs: &[Glyph],
    column: i64,
    edge: i64,
) -> impl Iterator<Item = (Glyph, i64, Place)> {
    glyphs.iter().enumerate().map(move |(number, &glyph)| {
        let start = column + width(&glyphs[..number]);
        (glyph, start, place(start, glyph.width, edge))
    })
}
