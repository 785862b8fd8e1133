//! C-15: the frame alone, the text alone, and both calls beside the drawing of a notice at once.

use oracle::{Notice, Outcome, Rect};
use rules::screen::Area;
use rules::{apart, frame, notice};

use crate::cases::{self, Case};
use crate::laid::{Laid, Names};
use crate::notices::{by_rust, screen};
use crate::random::Random;
use crate::report::Report;

/// Compares random notices. The text is drawn alone into the inner area that the frame answers,
/// into the notice's area, and into any other.
pub fn at_random(report: &mut Report, random: &mut Random, count: u32) {
    for _ in 0..count {
        let case = cases::case(random);
        let records = [case.text.as_slice(), &case.titles].concat();
        report.note_reading("frames and texts", &records, case.notice.ambiguous);
        pair(report, &case);
        let inner = frame(report, &case);
        for area in [inner, case.area, cases::text_area(random, case.columns, case.rows)] {
            text(report, &case, area);
        }
    }
}

/// Compares a frame's cells and the inner area that it answers, and returns that area.
fn frame(report: &mut Report, case: &Case) -> Rect {
    let Case { columns, rows, ref titles, area, ref styles, .. } = *case;
    let Notice { block, style, ambiguous, .. } = case.notice;
    let mut screen = screen(case);
    let met = frame::met(area.into(), &screen);
    report.note(&format!("frames in an area {}", kind(area, met)));
    let inner =
        apart::draw_frame(&mut screen, titles, ambiguous, area.into(), style, &block).numbers();

    let mut cells = case.cells.clone();
    let rust = oracle::draw_frame(
        columns, rows, &mut cells, styles, titles, ambiguous, area, style, block,
    );
    let answered = rust.clone().map(|area| Area::from(area).numbers());
    report.same("inner areas that a frame answers", case, &Outcome::Value(inner), &answered);
    let drawn = rust.map(|_| cells);
    report.same("cells of a frame", case, &Outcome::Value(screen.cells), &drawn);
    let [x, y, width, height] = inner.map(|number| number as u16);
    Rect::new(x, y, width, height)
}

const NAMES: Names = Names {
    counts: "counts of a text alone",
    cells: "cells of a text alone",
    blanked: "cells of a text alone, halved glyphs given blank",
    placing: "texts alone that place a glyph",
    halving: "texts alone that halve a glyph, their cells skipped",
    written: "cells of a text alone skipped, a clipped glyph is written",
    panicking: "cells of a text alone skipped, a clipped glyph makes the Rust panic",
};

/// Compares a text drawn alone into an area.
fn text(report: &mut Report, case: &Case, area: Rect) {
    let Case { columns, rows, ref text, ref styles, .. } = *case;
    let settings = case.notice.text();
    let mut screen = screen(case);
    let met = frame::met(area.into(), &screen);
    report.note(&format!("texts alone in an area {}", kind(area, met)));
    let drawn = apart::draw_text(&mut screen, text, area.into(), &settings);
    let by_rust = |text: &[u32]| {
        let mut cells = case.cells.clone();
        oracle::draw_text(columns, rows, &mut cells, styles, text, area, settings).map(|_| cells)
    };
    let laid = Laid {
        input: &(area, case),
        text,
        settings,
        columns: met.width,
        drawn,
        cells: screen.cells,
        counts: oracle::text_counts(columns, rows, text, area, settings),
        by_rust: &by_rust,
    };
    laid.compare(report, &NAMES);
}

/// Returns how an area lies to the screen.
fn kind(area: Rect, met: Area) -> &'static str {
    if area.is_empty() {
        "without a cell"
    } else if met.is_empty() {
        "off the screen"
    } else if met.numbers() != Area::from(area).numbers() {
        "that overhangs the screen"
    } else {
        "on the screen"
    }
}

/// "Frame, then text into the area it answered, must leave the cells and counts that the combined
/// drawing defined." The Rust must agree, even where it writes a clipped glyph or panics.
fn pair(report: &mut Report, case: &Case) {
    let Case { columns, rows, ref text, ref titles, area, ref styles, .. } = *case;
    let Notice { block, style, ambiguous, .. } = case.notice;
    let settings = case.notice.text();
    let [mut apart, mut whole] = [screen(case), screen(case)];
    let inner = apart::draw_frame(&mut apart, titles, ambiguous, area.into(), style, &block);
    let drawn = apart::draw_text(&mut apart, text, inner, &settings);
    let combined = notice::draw(&mut whole, text, titles, area.into(), &case.notice);
    let answers =
        [("the pair", &(drawn, apart.cells)), ("drawn at once", &(combined, whole.cells))];
    report.alike("pairs and notices drawn at once, by the rules", case, answers);

    let mut cells = case.cells.clone();
    let pair = oracle::draw_frame(
        columns, rows, &mut cells, styles, titles, ambiguous, area, style, block,
    )
    .and_then(|inner| oracle::draw_text(columns, rows, &mut cells, styles, text, inner, settings))
    .map(|drawn| (drawn, cells));
    let answers = [("the pair", &pair), ("drawn at once", &by_rust(case, text))];
    report.alike("pairs and notices drawn at once, by the Rust", case, answers);
}
