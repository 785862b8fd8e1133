//! Inner areas, blocks, notices and their measures.

use oracle::{Drawn, Notice, Outcome};
use rules::screen::Screen;
use rules::{frame, lines, measure, notice};

use crate::cases::{self, Case};
use crate::laid::{Laid, Names};
use crate::random::Random;
use crate::report::Report;

pub fn at_random(report: &mut Report, random: &mut Random, count: u32) {
    for _ in 0..count {
        let case = cases::case(random);
        let records = [case.text.as_slice(), &case.titles].concat();
        report.note_reading("notices", &records, case.notice.ambiguous);
        measures(report, &case);
        inner(report, &case);
        block(report, &case);
        whole(report, &case);
    }
}

/// Returns the screen that a case is drawn on.
pub fn screen(case: &Case) -> Screen {
    Screen {
        columns: case.columns.into(),
        rows: case.rows.into(),
        cells: case.cells.clone(),
        styles: case.styles.clone(),
    }
}

fn measures(report: &mut Report, case: &Case) {
    let Case { ref text, ref titles, area, notice, .. } = *case;
    let Notice { block, wrap, ambiguous, .. } = notice;
    let limit = area.width.min(4_096);
    let document = measure::line_count(text, ambiguous, titles, &block, wrap, limit);
    let rust = oracle::line_count(text, ambiguous, titles, block, wrap, limit);
    report.same("line_count", case, &Outcome::Value(document), &rust);
    let document = Outcome::Value(measure::line_width(text, ambiguous, &block));
    let rust = oracle::line_width(text, ambiguous, titles, block);
    report.same("line_width", case, &document, &rust);
}

fn inner(report: &mut Report, case: &Case) {
    let titles = lines(&case.titles, case.notice.ambiguous);
    let area = frame::inner(&case.notice.block, &titles, case.area.into());
    let document = Outcome::Value(area.numbers());
    let rust = oracle::inner(case.notice.block, &case.titles, case.area)
        .map(|area| [area.x, area.y, area.width, area.height].map(i64::from));
    report.same("inner areas", case, &document, &rust);
}

fn block(report: &mut Report, case: &Case) {
    let mut screen = screen(case);
    let met = frame::met(case.area.into(), &screen);
    let Notice { block, ambiguous, .. } = case.notice;
    frame::draw(&mut screen, &block, &lines(&case.titles, ambiguous), met);

    let mut cells = case.cells.clone();
    let outcome = oracle::draw_block(
        case.columns,
        case.rows,
        &mut cells,
        &case.styles,
        &case.titles,
        ambiguous,
        case.area,
        block,
    );
    report.same("cells of a block", case, &Outcome::Value(screen.cells), &outcome.map(|()| cells));
}

const NAMES: Names = Names {
    counts: "counts of a notice",
    cells: "cells of a notice",
    blanked: "cells of a notice, halved glyphs given blank",
    placing: "notices that place a glyph",
    halving: "notices that halve a glyph, their cells skipped",
    written: "cells skipped, a clipped glyph is written",
    panicking: "cells skipped, a clipped glyph makes the Rust panic",
};

/// Compares a notice drawn at once.
fn whole(report: &mut Report, case: &Case) {
    let Case { columns, rows, ref text, ref titles, area, notice, .. } = *case;
    let mut screen = screen(case);
    let drawn = notice::draw(&mut screen, text, titles, area.into(), &notice);
    let met = frame::met(area.into(), &screen);
    let inner = frame::inner(&notice.block, &lines(titles, notice.ambiguous), met);
    let laid = Laid {
        input: case,
        text,
        settings: notice.text(),
        columns: inner.width,
        drawn,
        cells: screen.cells,
        counts: oracle::notice_counts(columns, rows, text, titles, area, notice),
        by_rust: &|text| by_rust(case, text).map(|(_, cells)| cells),
    };
    laid.compare(report, &NAMES);
}

/// Returns the counts and cells that the Rust draws of a text in the notice of a case.
pub fn by_rust(case: &Case, text: &[u32]) -> Outcome<(Drawn, Vec<u64>)> {
    let Case { columns, rows, ref titles, area, notice, .. } = *case;
    let mut cells = case.cells.clone();
    oracle::draw_notice(columns, rows, &mut cells, &case.styles, text, titles, area, notice)
        .map(|drawn| (drawn, cells))
}
