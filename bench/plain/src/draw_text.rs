//! The call `draw_text`.

use crate::buffer::Screen;
use crate::layout::Rect;
use crate::paragraph;
use crate::refuse::{self, Refusal, unless};
use crate::render_lines::DrawCounts;
use crate::render_text::TextSettings;

/// Checks cause 6.
fn style_numbers_wrong(count: usize, text: &[u32], settings: TextSettings) -> bool {
    refuse::style_numbers_wrong(count, &[settings.style, settings.text_style])
        || refuse::glyph_styles_wrong(count, text)
}

/// Lays the paragraph style and the text of a notice into the part of an area that is on the
/// screen: causes 1, 2, 3, 4, 6. A refused call changes no cell.
pub fn draw_text(
    columns: u32,
    rows: u32,
    cells: &mut [u64],
    styles: &[u64],
    text: &[u32],
    area: Rect,
    settings: TextSettings,
) -> Result<DrawCounts, Refusal> {
    unless(refuse::screen_wrong(columns, rows, cells.len()), Refusal::Screen)?;
    unless(refuse::styles_wrong(styles), Refusal::Styles)?;
    unless(refuse::text_too_long(text), Refusal::TextLength)?;
    unless(refuse::text_heads_wrong(text), Refusal::TextHeads)?;
    unless(style_numbers_wrong(styles.len(), text, settings), Refusal::StyleNumber)?;
    let screen = Screen { columns: columns as u16, rows: rows as u16 };
    Ok(paragraph::render_paragraph(screen, cells, styles, text, area, settings))
}
