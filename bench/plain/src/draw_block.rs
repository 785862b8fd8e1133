//! The call `draw_block`.

use crate::block::Block;
use crate::buffer::Screen;
use crate::layout::Rect;
use crate::refuse::{self, Refusal, unless};
use crate::render_block::render_frame;
use crate::text::AmbiguousWidth;

/// Checks cause 6.
pub fn style_numbers_wrong(count: usize, titles: &[u32], block: &Block) -> bool {
    block.style_numbers_wrong(count) || refuse::glyph_styles_wrong(count, titles)
}

/// Draws a block with its titles: causes 1, 2, 5, 6, 7. A refused call changes no cell.
#[expect(clippy::too_many_arguments, reason = "as many as the call has")]
pub fn draw_block(
    columns: u32,
    rows: u32,
    cells: &mut [u64],
    styles: &[u64],
    titles: &[u32],
    ambiguous: AmbiguousWidth,
    area: Rect,
    block: &Block,
) -> Result<(), Refusal> {
    unless(refuse::screen_wrong(columns, rows, cells.len()), Refusal::Screen)?;
    unless(refuse::styles_wrong(styles), Refusal::Styles)?;
    unless(refuse::titles_wrong(titles), Refusal::Titles)?;
    unless(style_numbers_wrong(styles.len(), titles, block), Refusal::StyleNumber)?;
    unless(block.symbols_wrong(), Refusal::Symbol)?;
    let screen = Screen { columns: columns as u16, rows: rows as u16 };
    let met = area.intersection(screen.area());
    if !met.is_empty() {
        render_frame(screen, cells, styles, titles, ambiguous, block, met);
    }
    Ok(())
}
