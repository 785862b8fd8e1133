//! C-15, the two calls in place of the drawing of a notice: "one draws the frame, paragraph style
//! first, and answers the inner area (four zeros where refused), one lays paragraph style and text
//! into a given area, met with the screen first."

use oracle::{AmbiguousWidth, Block, Drawn, TextSettings};

use crate::frame::{self, inner, met};
use crate::lines;
use crate::notice::draw_rows;
use crate::screen::{Area, Screen};

/// Draws the frame and returns the inner area. Both are over the met area: "Drawing meets area and
/// screen first [...] Then, over the met area: the paragraph style where a notice is drawn, block
/// style", and so on; a notice has its text in the "inner area of the met area". If nothing is met,
/// that is the inner area of the empty meeting.
pub fn draw_frame(
    screen: &mut Screen,
    titles: &[u32],
    ambiguous: AmbiguousWidth,
    area: Area,
    style: u8,
    block: &Block,
) -> Area {
    let titles = lines(titles, ambiguous);
    let met = met(area, screen);
    screen.style(usize::from(style), |x, y| met.holds(x, y));
    frame::draw(screen, block, &titles, met);
    inner(block, &titles, met)
}

/// Lays the paragraph style and the text into an area. The met area takes the place of the inner
/// area of a notice: its width is the limit, its right edge clips, and if it has no cell, it "gets
/// no line, and the counts are 0".
pub fn draw_text(screen: &mut Screen, text: &[u32], area: Area, settings: &TextSettings) -> Drawn {
    let met = met(area, screen);
    if met.is_empty() {
        return Drawn::default();
    }
    screen.style(usize::from(settings.style), |x, y| met.holds(x, y));
    draw_rows(screen, text, met, settings)
}
