//! Whole notices: centring, scrolling, clipping, measuring.

use oracle::AmbiguousWidth::Narrow;
use oracle::{
    Alignment, Block, Drawn, Notice, Outcome, Rect, Wrap, line_count, line_width, notice_counts,
};

use crate::frame::bordered;
use crate::notation::{glyph, line};
use crate::report::Report;
use crate::screen::{BLANK_CELL, Screen};

pub fn run(report: &mut Report) {
    centring(report);
    unwrapped(report);
    scrolling(report);
    clipping(report);
    low_bits(report);
    measuring(report);
}

/// Returns a wrapped, trimmed notice without a frame.
pub fn plain() -> Notice {
    Notice {
        block: Block::default(),
        style: 0,
        text_style: 0,
        alignment: Alignment::Left,
        wrap: Wrap::On { trim: true },
        ambiguous: Narrow,
        scroll: 0,
    }
}

fn counts(rows: u32, placed: u32, clipped: u32) -> Drawn {
    Drawn { rows, placed, clipped, halved: 0 }
}

fn centring(report: &mut Report) {
    let notice = Notice { alignment: Alignment::Center, ..plain() };
    let mut screen = Screen::blank(4, 1);
    let drawn = screen.draw_notice(&line(3, "abc"), Rect::new(0, 0, 4, 1), notice);
    let got = drawn.map(|drawn| (screen.symbols(), drawn));
    let expected = ("_abc".to_owned(), counts(1, 3, 0));
    report.same("area 4, line 3, centre: column 1", Outcome::Value(expected), got);
}

fn unwrapped(report: &mut Report) {
    let examples = [
        ("left, by 1", 0, 1, "W_ab", 3),
        ("left, by 2", 0, 2, "abc_", 3),
        ("right, by 1", 2, 1, "W_ab", 3),
    ];
    for (name, alignment, column, expected, placed) in examples {
        let notice = Notice { wrap: Wrap::Off { column }, ..plain() };
        let mut screen = Screen::blank(4, 1);
        let text = line(alignment, "Wabc");
        let drawn = screen.draw_notice(&text, Rect::new(0, 0, 4, 1), notice);
        let got = drawn.map(|drawn| (screen.symbols(), drawn));
        let expected = (expected.to_owned(), counts(1, placed, 0));
        report.same(&format!("drawn \"Wabc\", {name}"), Outcome::Value(expected), got);
    }
}

/// Pages of two rows in a frame: "ab", "cd", "ef" on pages 0 and 1, and nothing past the end.
fn scrolling(report: &mut Report) {
    let text = line(3, "ab_cd_ef");
    let pages = [
        (0, "1tt2|labr|lcdr|3bb4", counts(2, 4, 0)),
        (2, "1tt2|lefr|l__r|3bb4", counts(1, 2, 0)),
        (4, "1tt2|l__r|l__r|3bb4", counts(0, 0, 0)),
    ];
    for (scroll, expected, counts) in pages {
        let notice = Notice { block: bordered(), scroll, ..plain() };
        let mut screen = Screen::blank(4, 4);
        let drawn = screen.draw_notice(&text, Rect::new(0, 0, 4, 4), notice);
        let got = drawn.map(|drawn| (screen.symbols(), drawn));
        let expected = (expected.to_owned(), counts);
        report.same(&format!("framed, scrolled down by {scroll}"), Outcome::Value(expected), got);
    }
}

/// "___aWWx" in four columns: x is clipped. The Rust writes it past the area, or panics if that is
/// off the screen.
fn clipping(report: &mut Report) {
    let text = line(0, "___aWWx");
    let area = Rect::new(0, 0, 4, 2);
    let mut wide = Screen::blank(5, 2);
    let drawn = wide.draw_notice(&text, area, plain());
    let got = drawn.map(|drawn| (wide.symbols(), drawn));
    let expected = ("a____|W_W_x".to_owned(), counts(2, 3, 1));
    report.same("clipped: the Rust writes past the area", Outcome::Value(expected), got);

    let mut narrow = Screen::blank(4, 2);
    let got = narrow.draw_notice(&text, area, plain());
    let message = "position (4, 1) is off the screen of 4 × 2".to_owned();
    report.same("clipped: the Rust panics at the edge", Outcome::Panicked(message), got);
    let blank = vec![BLANK_CELL; 8];
    report.same("clipped: a panic leaves the cells", blank, narrow.cells);
    let got = notice_counts(4, 2, &text, &[], area, plain());
    report.same("clipped: counted all the same", Outcome::Value(counts(2, 3, 1)), got);
}

fn low_bits(report: &mut Report) {
    let low = 0x2_a5a5;
    let mut screen = Screen::filled(4, 3, BLANK_CELL | low);
    let notice = Notice { block: bordered(), ..plain() };
    let drawn = screen.draw_notice(&line(0, "ab"), Rect::new(0, 0, 4, 3), notice);
    let kept = screen.cells.iter().all(|cell| cell & 0x3_ffff == low);
    let got = drawn.map(|_| (screen.symbols(), kept));
    let expected = ("1tt2|labr|3bb4".to_owned(), true);
    report.same("the 18 low bits of a cell are kept", Outcome::Value(expected), got);
}

fn measuring(report: &mut Report) {
    let text = [line(0, "___abc"), line(0, "aWb")].concat();
    let trim = Wrap::On { trim: true };
    let got = line_count(&text, Narrow, &[], bordered(), trim, 5);
    report.same("line_count: 3 lines and 2 borders", Outcome::Value(5), got);
    let got = line_count(&text, Narrow, &[], bordered(), Wrap::Off { column: 0 }, 5);
    report.same("line_count, unwrapped: 2 lines and 2 borders", Outcome::Value(4), got);
    let got = line_count(&text, Narrow, &[], bordered(), trim, 0);
    report.same("line_count at width 0", Outcome::Value(0), got);
    let got = line_width(&text, Narrow, &[], bordered());
    report.same("line_width: 6 and 2 borders", Outcome::Value(8), got);
    let widest = [line(0, ""), vec![glyph('Z') | 6 << 7]].concat();
    let got = line_width(&widest, Narrow, &[], Block::default());
    report.same("line_width of a glyph of 6 cells", Outcome::Value(6), got);
}
