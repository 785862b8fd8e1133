//! The call `draw_frame`.

use crate::block::Block;
use crate::buffer::Screen;
use crate::draw_block;
use crate::layout::Rect;
use crate::paragraph;
use crate::refuse::{self, Refusal, unless};
use crate::text::AmbiguousWidth;

/// Checks cause 6.
fn style_numbers_wrong(count: usize, titles: &[u32], style: u8, block: &Block) -> bool {
    refuse::style_numbers_wrong(count, &[style])
        || draw_block::style_numbers_wrong(count, titles, block)
}

/// Draws the frame of a notice, its paragraph style first, and returns the inner area of the part
/// on the screen, for `draw_text`: causes 1, 2, 5, 6, 7. A refused call changes no cell.
#[expect(clippy::too_many_arguments, reason = "as many as the call has")]
pub fn draw_frame(
    columns: u32,
    rows: u32,
    cells: &mut [u64],
    styles: &[u64],
    titles: &[u32],
    ambiguous: AmbiguousWidth,
    area: Rect,
    style: u8,
    block: &Block,
) -> Result<Rect, Refusal> {
    unless(refuse::screen_wrong(columns, rows, cells.len()), Refusal::Screen)?;
    unless(refuse::styles_wrong(styles), Refusal::Styles)?;
    unless(refuse::titles_wrong(titles), Refusal::Titles)?;
    unless(style_numbers_wrong(styles.len(), titles, style, block), Refusal::StyleNumber)?;
    unless(block.symbols_wrong(), Refusal::Symbol)?;
    let screen = Screen { columns: columns as u16, rows: rows as u16 };
    paragraph::render_frame(screen, cells, styles, titles, ambiguous, area, style, block);
    Ok(paragraph::inner_area(screen, titles, block, area))
}
