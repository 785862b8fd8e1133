//! Draws one title in its area.

use crate::buffer::{Ink, Screen, paint_area, style_at};
use crate::layout::Rect;
use crate::text::{Alignment, AmbiguousWidth, glyph};

/// Returns the width of a title line, saturating at 65,535.
pub fn line_width_u16(glyphs: &[u32], ambiguous: AmbiguousWidth) -> u16 {
    let width = |word| glyph::width(word, ambiguous) as u16;
    glyphs.iter().fold(0, |sum: u16, &word| sum.saturating_add(width(word)))
}

/// Writes the glyphs of a title line up to the first that overruns the row, except those that start
/// in hidden columns or have width 0.
fn write_title_line(
    row: &mut [u64],
    styles: &[u64],
    alignment: Alignment,
    glyphs: &[u32],
    ambiguous: AmbiguousWidth,
) {
    let (needed, columns) = (usize::from(line_width_u16(glyphs, ambiguous)), row.len());
    let (mut column, hidden) = match alignment {
        Alignment::Right => (columns.saturating_sub(needed), needed.saturating_sub(columns)),
        Alignment::Left | Alignment::Center => (0, 0),
    };
    for &word in glyphs {
        let width = glyph::width(word, ambiguous);
        let next = column + width as usize;
        if next > hidden + columns {
            return;
        }
        if column >= hidden && width != 0 {
            let ink = Ink::Both(glyph::symbol(word), style_at(styles, glyph::style(word)));
            let cell = &mut row[column - hidden];
            *cell = ink.on(*cell);
        }
        column = next;
    }
}

/// Draws a title in its area: the titles style, then the drawn glyphs.
#[expect(clippy::too_many_arguments, reason = "as many as in the proved code")]
pub fn render_title(
    screen: Screen,
    cells: &mut [u64],
    styles: &[u64],
    style: u8,
    area: Rect,
    alignment: Alignment,
    glyphs: &[u32],
    ambiguous: AmbiguousWidth,
) {
    paint_area(screen, cells, area, Ink::Style(style_at(styles, style)));
    let row = screen.row_part(cells, area.y.into(), area.x, area.right());
    write_title_line(row, styles, alignment, glyphs, ambiguous);
}
