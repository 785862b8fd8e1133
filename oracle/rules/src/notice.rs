//! 'Rows, pages, tally': a whole notice, drawn at once. C-15 calls it "the combined drawing".

use oracle::{Alignment, Drawn, Notice, TextSettings};

use crate::compose::{Composed, compose};
use crate::frame::{self, inner, met};
use crate::place::{Place, places};
use crate::screen::{Area, Screen};
use crate::{lines, width};

pub fn draw(
    screen: &mut Screen,
    text: &[u32],
    titles: &[u32],
    area: Area,
    notice: &Notice,
) -> Drawn {
    let titles = lines(titles, notice.ambiguous);
    let met = met(area, screen);
    let style = usize::from(notice.style);
    screen.style(style, |x, y| met.holds(x, y));
    frame::draw(screen, &notice.block, &titles, met);
    let area = inner(&notice.block, &titles, met);
    if area.is_empty() {
        return Drawn::default();
    }
    screen.style(style, |x, y| area.holds(x, y));
    draw_rows(screen, text, area, &notice.text())
}

/// Draws a text's lines, composed at the width of an area on the screen, into its rows: "lines from
/// the scroll row (16 bits)". "The answer carries the rows drawn, glyphs placed and clipped."
pub fn draw_rows(screen: &mut Screen, text: &[u32], area: Area, settings: &TextSettings) -> Drawn {
    let TextSettings { ambiguous, alignment, wrap, .. } = *settings;
    let composed = compose(text, ambiguous, alignment, area.width, wrap).lines;
    let from_scroll = composed.iter().skip(usize::from(settings.scroll));
    let mut drawn = Drawn::default();
    for (row, line) in (area.y..area.bottom()).zip(from_scroll) {
        drawn.rows += 1;
        draw_line(screen, line, Area { y: row, ..area }, settings.text_style, &mut drawn);
    }
    drawn
}

/// "Centre being half the area less half the line, each half rounded down."
pub fn start_column(line: &Composed, columns: i64) -> i64 {
    match line.alignment {
        Alignment::Left => 0,
        Alignment::Center => (columns / 2 - width(&line.glyphs) / 2).max(0),
        Alignment::Right => (columns - width(&line.glyphs)).max(0),
    }
}

/// "32 is the blank symbol."
const BLANK: u64 = 32;

/// Draws a composed line in the first row of an area. C-14 on a glyph that starts inside and runs
/// past the right edge: "its first cell gets the blank symbol, then the text style and the glyph's
/// own as before".
fn draw_line(screen: &mut Screen, line: &Composed, area: Area, text_style: u8, drawn: &mut Drawn) {
    let column = start_column(line, area.width);
    for (glyph, start, place) in places(&line.glyphs, column, area.width) {
        drawn.placed += u32::from(place == Place::Inside);
        drawn.clipped += u32::from(matches!(place, Place::Halved | Place::Outside));
        drawn.halved += u32::from(place == Place::Halved);
        let symbol = match place {
            Place::Inside => glyph.symbol,
            Place::Halved => BLANK,
            Place::ZeroWidth | Place::Outside => continue,
        };
        let chosen = |x, y| (x, y) == (area.x + start, area.y);
        screen.symbol(symbol, chosen);
        screen.style(usize::from(text_style), chosen);
        screen.style(glyph.style, chosen);
    }
}
