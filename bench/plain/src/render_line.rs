//! Draws one composed line on a row of the text's area.

use crate::buffer::style_at;
use crate::cell;
use crate::line_composer::WrappedLine;
use crate::place::Place;
use crate::text::{Alignment, glyph};
use crate::word_wrapper::Rule;

/// Counts of the glyphs placed and clipped.
pub struct GlyphCounts {
    pub placed: u32,
    pub clipped: u32,
}

fn get_line_offset(alignment: Alignment, area: usize, line: usize) -> usize {
    match alignment {
        Alignment::Left => 0,
        Alignment::Center => (area / 2).saturating_sub(line / 2),
        Alignment::Right => area.saturating_sub(line),
    }
}

/// The blank symbol.
const BLANK: u32 = 32;

/// Writes a symbol in a cell, then the text style, then the style with the number given.
fn write_cell(styles: &[u64], text_style: u64, symbol: u32, style: u8, cell: &mut u64) {
    let text_styled = cell::set_style(text_style, cell::set_symbol(symbol, *cell));
    *cell = cell::set_style(style_at(styles, style), text_styled);
}

/// Draws a composed line on a row of the area.
pub fn render_line(
    row: &mut [u64],
    styles: &[u64],
    style: u8,
    rule: Rule,
    text: &[u32],
    line: WrappedLine,
) -> GlyphCounts {
    let mut column = get_line_offset(line.alignment, row.len(), line.width as usize);
    let text_style = style_at(styles, style);
    let mut counts = GlyphCounts { placed: 0, clipped: 0 };
    for &word in &text[line.first..line.end] {
        let Some(width) = rule.fitting(word) else {
            continue;
        };
        let width = width as usize;
        let style = glyph::style(word);
        match Place::of_glyph(row.len(), column, width) {
            Place::ZeroWidth => {}
            Place::Placed => {
                write_cell(styles, text_style, glyph::symbol(word), style, &mut row[column]);
                counts.placed += 1;
            }
            Place::Halved => {
                write_cell(styles, text_style, BLANK, style, &mut row[column]);
                counts.clipped += 1;
            }
            Place::Outside => counts.clipped += 1,
        }
        column += width;
    }
    counts
}
