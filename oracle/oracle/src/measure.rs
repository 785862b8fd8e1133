//! Sizes: areas on the screen, the inner area, the space that a frame takes, and a text's line
//! count and width.

use ratatui_widgets::paragraph::Paragraph;

use crate::outcome::{Outcome, ask};
use crate::records::Records;
use crate::settings::{Alignment, AmbiguousWidth, Block, Padding, Rect, TextSettings, Wrap};
use crate::widgets::{block, paragraph};

/// Returns the screen as a rectangle.
pub fn screen(columns: u32, rows: u32) -> Rect {
    let side = |size| u16::try_from(size).expect("an accepted screen fits 16 bits");
    Rect::new(0, 0, side(columns), side(rows))
}

/// "Drawing meets area and screen first."
pub fn met(columns: u32, rows: u32, area: Rect) -> Outcome<Rect> {
    ask(|| area.intersection(screen(columns, rows)))
}

/// Returns the inner area of a block as drawn: that of the area met with the screen.
pub fn drawn_inner(
    columns: u32,
    rows: u32,
    titles: &[u32],
    area: Rect,
    settings: Block,
) -> Outcome<Rect> {
    met(columns, rows, area).and_then(|met| inner(settings, titles, met))
}

/// `Block::inner` of any rectangle.
pub fn inner(settings: Block, titles: &[u32], area: Rect) -> Outcome<Rect> {
    ask(|| block(settings, &Records::of_any_width(titles), None).inner(area))
}

/// `Block::horizontal_space`: left and right.
pub fn horizontal_space(settings: Block, titles: &[u32]) -> Outcome<(u16, u16)> {
    let titles = Records::of_any_width(titles);
    ask(|| ratatui_widgets::horizontal_space(&block(settings, &titles, None)))
}

/// `Block::vertical_space`: top and bottom.
pub fn vertical_space(settings: Block, titles: &[u32]) -> Outcome<(u16, u16)> {
    let titles = Records::of_any_width(titles);
    ask(|| ratatui_widgets::vertical_space(&block(settings, &titles, None)))
}

/// `Paragraph::line_count` at a width.
pub fn line_count(
    text: &[u32],
    ambiguous: AmbiguousWidth,
    titles: &[u32],
    settings: Block,
    wrap: Wrap,
    width: u16,
) -> Outcome<u32> {
    measured(text, ambiguous, titles, settings, wrap, |framed| framed.line_count(width))
}

/// `Paragraph::line_width`.
pub fn line_width(
    text: &[u32],
    ambiguous: AmbiguousWidth,
    titles: &[u32],
    settings: Block,
) -> Outcome<u32> {
    let wrap = Wrap::Off { column: 0 };
    measured(text, ambiguous, titles, settings, wrap, |framed| framed.line_width())
}

/// `Padding::proportional`, which overflows above 32,767.
pub fn proportional_padding(value: u16) -> Outcome<Padding> {
    ask(|| Padding::proportional(value))
}

/// Measures a notice whose styles and alignment don't matter.
fn measured(
    text: &[u32],
    ambiguous: AmbiguousWidth,
    titles: &[u32],
    settings: Block,
    wrap: Wrap,
    measure: impl FnOnce(&Paragraph<'_>) -> usize,
) -> Outcome<u32> {
    let unframed = TextSettings {
        style: 0,
        text_style: 0,
        alignment: Alignment::Left,
        wrap,
        ambiguous,
        scroll: 0,
    };
    ask(|| {
        let (text, titles) = (Records::new(text, ambiguous), Records::new(titles, ambiguous));
        let framed = paragraph(unframed, &text, None).block(block(settings, &titles, None));
        u32::try_from(measure(&framed)).expect("sizes of accepted texts fit 32 bits")
    })
}
