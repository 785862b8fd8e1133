//! The answers on a test notice, and their checksums. If no glyph is clipped they are the Rust's.
//! Else they are those of document 01 and C-14, by the crate `rules`, as the Rust writes a clipped
//! glyph, or panics.

use oracle::{Drawn, Notice, Outcome, Rect};
use rules::screen::Screen;

use super::Case;
use crate::sums::{sum_entries, sum_numbers};

/// Returns the checksum of the rows drawn, the glyphs placed and clipped, and all cells, after the
/// notice is drawn.
pub fn notice(case: &Case) -> Outcome<u32> {
    let Case { notice, area, ref text, ref titles, ref styles, .. } = *case;
    unless_clipped(
        notice_counts(case),
        || {
            let ([columns, rows], mut cells) = start(case);
            oracle::draw_notice(columns, rows, &mut cells, styles, text, titles, area, notice)
                .map(|drawn| sum_drawn(drawn, cells))
        },
        || {
            let mut screen = screen(case);
            let drawn = rules::notice::draw(&mut screen, text, titles, area.into(), &notice);
            sum_drawn(drawn, screen.cells)
        },
    )
}

/// Returns the checksum of the inner area that the frame answers, and all cells, after the frame is
/// drawn alone.
pub fn frame(case: &Case) -> Outcome<u32> {
    let Case { area, ref titles, ref styles, .. } = *case;
    let Notice { block, style, ambiguous, .. } = case.notice;
    let ([columns, rows], mut cells) = start(case);
    oracle::draw_frame(columns, rows, &mut cells, styles, titles, ambiguous, area, style, block)
        .map(|Rect { x, y, width, height }| {
            let [x, y, width, height] = [x, y, width, height].map(u32::from);
            sum_numbers([x, y, width, height, sum_entries(cells.into_iter())])
        })
}

/// Returns the checksum of the rows drawn, the glyphs placed and clipped, and all cells, after the
/// text is drawn alone into the notice's area, not into its inner area.
pub fn text(case: &Case) -> Outcome<u32> {
    let Case { area, ref text, ref styles, .. } = *case;
    let settings = case.notice.text();
    unless_clipped(
        text_counts(case),
        || {
            let ([columns, rows], mut cells) = start(case);
            oracle::draw_text(columns, rows, &mut cells, styles, text, area, settings)
                .map(|drawn| sum_drawn(drawn, cells))
        },
        || {
            let mut screen = screen(case);
            let drawn = rules::apart::draw_text(&mut screen, text, area.into(), &settings);
            sum_drawn(drawn, screen.cells)
        },
    )
}

/// Counts the rows and glyphs of a notice, by the Rust's composed lines.
pub fn notice_counts(case: &Case) -> Outcome<Drawn> {
    let Case { notice, area, ref text, ref titles, columns, rows, .. } = *case;
    oracle::notice_counts(columns.into(), rows.into(), text, titles, area, notice)
}

/// Counts the rows and glyphs of the text alone, by the Rust's composed lines.
pub fn text_counts(case: &Case) -> Outcome<Drawn> {
    let Case { notice, area, ref text, columns, rows, .. } = *case;
    oracle::text_counts(columns.into(), rows.into(), text, area, notice.text())
}

/// Returns the Rust's answer if no glyph is clipped, else that of the crate `rules`.
fn unless_clipped(
    counts: Outcome<Drawn>,
    by_the_rust: impl FnOnce() -> Outcome<u32>,
    by_the_rules: impl FnOnce() -> u32,
) -> Outcome<u32> {
    counts.and_then(|counted| match counted.clipped {
        0 => by_the_rust(),
        _ => Outcome::Value(by_the_rules()),
    })
}

/// Returns the size of the screen, and its cells before a call.
fn start(case: &Case) -> ([u32; 2], Vec<u64>) {
    ([case.columns, case.rows].map(u32::from), case.cells.clone())
}

/// Returns the screen before a call, for the crate `rules`.
fn screen(case: &Case) -> Screen {
    Screen {
        columns: case.columns.into(),
        rows: case.rows.into(),
        cells: case.cells.clone(),
        styles: case.styles.clone(),
    }
}

/// Returns the checksum of the counts, then of the cells' checksum.
fn sum_drawn(drawn: Drawn, cells: Vec<u64>) -> u32 {
    let Drawn { rows, placed, clipped, halved: _ } = drawn;
    sum_numbers([rows, placed, clipped, sum_entries(cells.into_iter())])
}
