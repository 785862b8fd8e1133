//! Drawing on packed cells. If the Rust panics, the cells are unchanged.

use ratatui_core::buffer::Buffer;
use ratatui_core::widgets::Widget;

use crate::counts::{Drawn, notice_counts, text_counts};
use crate::measure::screen;
use crate::outcome::{Outcome, ask};
use crate::records::{Records, style};
use crate::settings::{AmbiguousWidth, Block, Notice, Rect, TextSettings};
use crate::widgets::{block, paragraph};

/// Draws a block.
#[expect(clippy::too_many_arguments, reason = "the call of document 02 has these")]
pub fn draw_block(
    columns: u32,
    rows: u32,
    cells: &mut [u64],
    styles: &[u64],
    titles: &[u32],
    ambiguous: AmbiguousWidth,
    area: Rect,
    settings: Block,
) -> Outcome<()> {
    drawn(columns, rows, cells, |buf| {
        block(settings, &Records::new(titles, ambiguous), Some(styles)).render(area, buf);
    })
}

/// Draws the frame of a notice and returns its inner area. C-15: "one draws the frame, paragraph
/// style first, and answers the inner area". These are the first steps of `Paragraph::render`: the
/// area is met with the screen, gets the paragraph's style, and the block is drawn over it.
#[expect(clippy::too_many_arguments, reason = "the call of document 02 has these")]
pub fn draw_frame(
    columns: u32,
    rows: u32,
    cells: &mut [u64],
    styles: &[u64],
    titles: &[u32],
    ambiguous: AmbiguousWidth,
    area: Rect,
    paragraph_style: u8,
    settings: Block,
) -> Outcome<Rect> {
    drawn(columns, rows, cells, |buf| {
        let titles = Records::new(titles, ambiguous);
        let block = block(settings, &titles, Some(styles));
        let met = area.intersection(buf.area);
        buf.set_style(met, style(Some(styles), paragraph_style));
        let inner = block.inner(met);
        block.render(met, buf);
        inner
    })
}

/// Draws a text as a `Paragraph` without a block, which meets the area with the screen and styles
/// it, and counts as document 01 and C-14 do. C-15: "one lays paragraph style and text into a given
/// area, met with the screen first". On clipped glyphs see [`draw_notice`]; [`text_counts`] counts
/// even if the Rust panics.
pub fn draw_text(
    columns: u32,
    rows: u32,
    cells: &mut [u64],
    styles: &[u64],
    text: &[u32],
    area: Rect,
    settings: TextSettings,
) -> Outcome<Drawn> {
    let outcome = drawn(columns, rows, cells, |buf| {
        let text = Records::new(text, settings.ambiguous);
        paragraph(settings, &text, Some(styles)).render(area, buf);
    });
    outcome.and_then(|()| text_counts(columns, rows, text, area, settings))
}

/// Draws a whole notice as a `Paragraph` with its block, and counts as document 01 and C-14 do. No
/// call does so any more: it is what C-15's two calls must leave together, "the cells and counts
/// that the combined drawing defined". If glyphs are clipped, the Rust writes those that start
/// inside the inner area, and writes others outside or panics, so the cells must not be compared;
/// [`notice_counts`] counts even if it panics.
#[expect(clippy::too_many_arguments, reason = "the call of document 01 had these")]
pub fn draw_notice(
    columns: u32,
    rows: u32,
    cells: &mut [u64],
    styles: &[u64],
    text: &[u32],
    titles: &[u32],
    area: Rect,
    settings: Notice,
) -> Outcome<Drawn> {
    let outcome = drawn(columns, rows, cells, |buf| {
        let [text, titles] =
            [text, titles].map(|records| Records::new(records, settings.ambiguous));
        let block = block(settings.block, &titles, Some(styles));
        paragraph(settings.text(), &text, Some(styles)).block(block).render(area, buf);
    });
    outcome.and_then(|()| notice_counts(columns, rows, text, titles, area, settings))
}

/// Runs `draw` on a copy of the cells, keeps the copy unless it panics, and returns its answer.
fn drawn<T>(
    columns: u32,
    rows: u32,
    cells: &mut [u64],
    draw: impl FnOnce(&mut Buffer) -> T,
) -> Outcome<T> {
    let outcome = ask(|| {
        let mut buf = Buffer::from_packed(screen(columns, rows), cells);
        let answer = draw(&mut buf);
        (answer, buf)
    });
    outcome.map(|(answer, buf)| {
        for (cell, word) in cells.iter_mut().zip(buf.packed()) {
            *cell = word;
        }
        answer
    })
}
