//! Draws the lines of a text in an area.

use crate::buffer::Screen;
use crate::layout::Rect;
use crate::line_composer::{LineComposer, Method};
use crate::render_line::render_line;
use crate::text::Alignment;
use crate::word_wrapper::Rule;

/// The rows drawn, and the glyphs placed and clipped in them.
#[derive(Debug, Default, Clone, Copy, PartialEq, Eq)]
pub struct DrawCounts {
    pub rows: u32,
    pub placed: u32,
    pub clipped: u32,
}

/// Settings of a text: how lines are composed, default alignment, style number and first line.
#[derive(Clone, Copy)]
pub struct TextOptions {
    pub rule: Rule,
    pub method: Method,
    pub default_alignment: Alignment,
    pub style: u8,
    pub scroll: u16,
}

/// Draws the lines of a text from the scroll row on, one per row of an area inside the screen.
pub fn render_lines(
    screen: Screen,
    cells: &mut [u64],
    styles: &[u64],
    text: &[u32],
    area: Rect,
    options: TextOptions,
) -> DrawCounts {
    let TextOptions { rule, method, default_alignment, style, scroll } = options;
    let lines = LineComposer::new(rule, method, default_alignment, text).skip(scroll.into());
    let mut counts = DrawCounts::default();
    for (y, line) in (usize::from(area.y)..).zip(lines.take(area.height.into())) {
        let row = screen.row_part(cells, y, area.x, area.right());
        let glyphs = render_line(row, styles, style, rule, text, line);
        counts.rows += 1;
        counts.placed += glyphs.placed;
        counts.clipped += glyphs.clipped;
    }
    counts
}
