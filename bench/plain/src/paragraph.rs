//! Draws a notice, its frame and its text apart.

use crate::block::Block;
use crate::buffer::{Ink, Screen, paint_area, style_at};
use crate::layout::Rect;
use crate::render_block;
use crate::render_lines::DrawCounts;
use crate::render_text::{TextSettings, render_text};
use crate::text::AmbiguousWidth;

/// Draws the frame of a notice over the intersection of its area and the screen, the notice's style
/// first, with its shadow.
#[expect(clippy::too_many_arguments, reason = "as many as in the proved code")]
pub fn render_frame(
    screen: Screen,
    cells: &mut [u64],
    styles: &[u64],
    titles: &[u32],
    ambiguous: AmbiguousWidth,
    area: Rect,
    style: u8,
    block: &Block,
) {
    let met = area.intersection(screen.area());
    if met.is_empty() {
        return;
    }
    paint_area(screen, cells, met, Ink::Style(style_at(styles, style)));
    render_block::render_frame(screen, cells, styles, titles, ambiguous, block, met);
}

/// Returns the inner area of the intersection of a notice's area and the screen.
pub fn inner_area(screen: Screen, titles: &[u32], block: &Block, area: Rect) -> Rect {
    block.inner_area(titles, area.intersection(screen.area()))
}

/// Lays the notice's style and its lines into the intersection of an area and the screen.
pub fn render_paragraph(
    screen: Screen,
    cells: &mut [u64],
    styles: &[u64],
    text: &[u32],
    area: Rect,
    settings: TextSettings,
) -> DrawCounts {
    let met = area.intersection(screen.area());
    if met.is_empty() {
        return DrawCounts::default();
    }
    render_text(screen, cells, styles, text, met, settings)
}
