//! C-11: "Width code 7 now means ambiguous, and each call that reads widths takes an enum setting,
//! narrow (1) or wide (2)."

use oracle::AmbiguousWidth::{self, Narrow, Wide};
use oracle::{
    Alignment, Block, ComposedLine, Drawn, Notice, Outcome, Rect, Tally, Wrap, line_count,
    line_width, tally, truncated_lines, wrapped_lines,
};

use crate::frame::title_row;
use crate::notation::{line, shown};
use crate::notices::plain;
use crate::report::Report;
use crate::screen::Screen;

pub fn run(report: &mut Report) {
    titles(report);
    limit_1(report);
    entries(report);
    lines(report);
    drawn(report);
    measures(report);
}

/// Titles A and b, left, in 10 columns: b in column 2 narrow, 3 wide.
fn titles(report: &mut Report) {
    let titles = [line(0, "A"), line(0, "b")];
    for (ambiguous, expected) in [(Narrow, "A_b_______"), (Wide, "A__b______")] {
        let got = title_row(10, &titles, ambiguous, Alignment::Left);
        let name = format!("titles A, b in 10 columns, {ambiguous:?}");
        report.same(&name, Outcome::Value(expected.to_owned()), got);
    }
}

/// A at limit 1 is placed narrow, over-wide wide.
fn limit_1(report: &mut Report) {
    let placed = Tally { lines: 1, placed: 1, ..Tally::default() };
    let over_wide = Tally { lines: 1, over_wide: 1, ..Tally::default() };
    for (ambiguous, expected) in [(Narrow, placed), (Wide, over_wide)] {
        let got = tally(&line(0, "A"), ambiguous, 1, true);
        let name = format!("tally \"A\" limit 1, {ambiguous:?}");
        report.same(&name, Outcome::Value(expected), got);
    }
}

/// ZAZ at limit 1, wide, is first 1, end 4, width 0: an over-wide glyph is between first and end.
fn entries(report: &mut Report) {
    let packed = |lines: Vec<ComposedLine>| lines.iter().map(ComposedLine::packed).collect();
    for (ambiguous, width) in [(Narrow, 1), (Wide, 0)] {
        let got = wrapped_lines(&line(0, "ZAZ"), ambiguous, Alignment::Left, 1, true).map(packed);
        let expected = vec![1 << 49 | 4 << 34 | width << 18 | 1 << 15];
        let name = format!("entry of \"ZAZ\" limit 1, {ambiguous:?}");
        report.same(&name, Outcome::Value(expected), got);
    }
}

/// Two-cell glyphs and ambiguous ones are alike when those are read wide.
fn lines(report: &mut Report) {
    let text = line(0, "AbW");
    let wrapped =
        |ambiguous| wrapped_lines(&text, ambiguous, Alignment::Left, 3, true).map(letters(&text));
    let truncated =
        |ambiguous| truncated_lines(&text, ambiguous, Alignment::Left, 4, 0).map(letters(&text));
    let expected = |lines: &str| Outcome::Value(lines.to_owned());
    report.same("wrap \"AbW\" limit 3, Narrow", expected("AbW"), wrapped(Narrow));
    report.same("wrap \"AbW\" limit 3, Wide", expected("Ab|W"), wrapped(Wide));
    report.same("unwrapped \"AbW\" limit 4, Narrow", expected("AbW"), truncated(Narrow));
    report.same("unwrapped \"AbW\" limit 4, Wide", expected("Ab"), truncated(Wide));
}

fn letters(text: &[u32]) -> impl Fn(Vec<ComposedLine>) -> String {
    |lines| shown(text, &lines)
}

fn drawn(report: &mut Report) {
    for (ambiguous, expected) in [(Narrow, "AaW__"), (Wide, "A_aW_")] {
        let notice = Notice { ambiguous, ..plain() };
        let mut screen = Screen::blank(5, 1);
        let drawn = screen.draw_notice(&line(0, "AaW"), Rect::new(0, 0, 5, 1), notice);
        let got = drawn.map(|drawn| (screen.symbols(), drawn));
        let counts = Drawn { rows: 1, placed: 3, ..Drawn::default() };
        let name = format!("drawn \"AaW\", {ambiguous:?}");
        report.same(&name, Outcome::Value((expected.to_owned(), counts)), got);
    }
}

fn measures(report: &mut Report) {
    let text = line(0, "AAb");
    let trim = Wrap::On { trim: true };
    let measured = |ambiguous: AmbiguousWidth| {
        line_width(&text, ambiguous, &[], Block::default()).and_then(|width| {
            line_count(&text, ambiguous, &[], Block::default(), trim, 3).map(|rows| (width, rows))
        })
    };
    let name = "line_width, and line_count at 3, of \"AAb\"";
    report.same(&format!("{name}, Narrow"), Outcome::Value((3, 1)), measured(Narrow));
    report.same(&format!("{name}, Wide"), Outcome::Value((5, 2)), measured(Wide));
}
