//! The counts of a drawing, by the definitions of document 01 and C-14, from the crate's composed
//! lines.

use crate::compose::{ComposedLine, truncated, wrapped};
use crate::measure::{drawn_inner, met};
use crate::outcome::Outcome;
use crate::records::Records;
use crate::settings::{Alignment, Notice, Rect, TextSettings, Wrap};
use crate::tally::glyph_counts;

/// The counts that drawing a text returns, and `halved`, which no call answers.
#[derive(Debug, Default, Clone, Copy, PartialEq, Eq)]
pub struct Drawn {
    pub rows: u32,
    pub placed: u32,
    pub clipped: u32,
    /// How many of the clipped start inside the area.
    pub halved: u32,
}

/// Returns the counts of a notice's drawing, whose text is in the crate's inner area.
pub fn notice_counts(
    columns: u32,
    rows: u32,
    text: &[u32],
    titles: &[u32],
    area: Rect,
    settings: Notice,
) -> Outcome<Drawn> {
    drawn_inner(columns, rows, titles, area, settings.block)
        .and_then(|inner| counted(inner, text, settings.text()))
}

/// Returns the counts of a text drawn into an area. C-15: "met with the screen first".
pub fn text_counts(
    columns: u32,
    rows: u32,
    text: &[u32],
    area: Rect,
    settings: TextSettings,
) -> Outcome<Drawn> {
    met(columns, rows, area).and_then(|met| counted(met, text, settings))
}

/// Returns the crate's inner area of a notice as drawn, and its composed lines at that width: none
/// if the area has no cell.
pub fn notice_lines(
    columns: u32,
    rows: u32,
    text: &[u32],
    titles: &[u32],
    area: Rect,
    settings: Notice,
) -> Outcome<(Rect, Vec<ComposedLine>)> {
    let text = &Records::new(text, settings.ambiguous);
    drawn_inner(columns, rows, titles, area, settings.block)
        .and_then(|inner| composed(inner, text, settings.text()).map(|lines| (inner, lines)))
}

/// Counts what a text draws in an area on the screen.
fn counted(area: Rect, text: &[u32], settings: TextSettings) -> Outcome<Drawn> {
    let text = &Records::new(text, settings.ambiguous);
    composed(area, text, settings).map(|lines| {
        let mut counts = Drawn::default();
        let from_scroll = lines.iter().skip(usize::from(settings.scroll));
        for line in from_scroll.take(usize::from(area.height)) {
            let glyphs = glyph_counts(text, line, start_column(line, area.width), area.width);
            counts.rows += 1;
            counts.placed += glyphs.placed;
            counts.clipped += glyphs.clipped;
            counts.halved += glyphs.halved;
        }
        counts
    })
}

/// Returns the crate's composed lines of a text at an area's width: none if the area has no cell.
fn composed(area: Rect, text: &Records, settings: TextSettings) -> Outcome<Vec<ComposedLine>> {
    if area.is_empty() {
        return Outcome::Value(Vec::new());
    }
    match settings.wrap {
        Wrap::Off { column } => truncated(text, settings.alignment, area.width, column),
        Wrap::On { trim } => wrapped(text, settings.alignment, area.width, trim),
    }
}

/// "Start column: `get_line_offset`, centre being half the area less half the line, each half
/// rounded down."
fn start_column(line: &ComposedLine, columns: u16) -> u16 {
    match line.alignment {
        Alignment::Left => 0,
        Alignment::Center => (columns / 2).saturating_sub(line.width / 2),
        Alignment::Right => columns.saturating_sub(line.width),
    }
}
