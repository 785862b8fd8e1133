//! Draws a block: its style, borders, titles and shadow.

use crate::block::Block;
use crate::buffer::{Ink, Screen, paint_area, style_at};
use crate::layout::Rect;
use crate::render_borders::render_borders;
use crate::render_titles::render_titles;
use crate::shadow::render_shadow;
use crate::text::AmbiguousWidth;

/// Draws the frame over a nonempty rectangle inside the screen.
pub fn render_frame(
    screen: Screen,
    cells: &mut [u64],
    styles: &[u64],
    titles: &[u32],
    ambiguous: AmbiguousWidth,
    block: &Block,
    met: Rect,
) {
    paint_area(screen, cells, met, Ink::Style(style_at(styles, block.style)));
    render_borders(screen, cells, styles, block, met);
    render_titles(screen, cells, styles, titles, ambiguous, block, met);
    if let Some(shadow) = block.shadow {
        render_shadow(screen, cells, styles, met, shadow);
    }
}
