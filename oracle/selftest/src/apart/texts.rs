//! The text alone, in any area: "met with the screen first".

use oracle::{Alignment, Drawn, Notice, Outcome, Rect, TextSettings, Wrap};

use super::calls::{BOTH, By};
use crate::notation::line;
use crate::notices::plain;
use crate::report::Report;
use crate::screen::{BLANK_CELL, Screen};

pub fn run(report: &mut Report) {
    areas(report);
    nothing_met(report);
    settings(report);
    halved(report);
    paragraph_style(report);
}

/// Compares the symbols and counts of a text on 5 × 3 cells of x.
fn same(
    report: &mut Report,
    name: &str,
    by: By,
    letters: &str,
    area: Rect,
    settings: TextSettings,
    expected: (&str, Drawn),
) {
    let mut screen = Screen::filled(5, 3, u64::from('x') << 43);
    let drawn = by.draw_text(&mut screen, &line(3, letters), area, settings);
    let got = drawn.map(|drawn| (screen.symbols(), drawn));
    let (symbols, counts) = expected;
    let name = format!("text {name}: {by}");
    report.same(&name, Outcome::Value((symbols.to_owned(), counts)), got);
}

fn counts(rows: u32, placed: u32) -> Drawn {
    Drawn { rows, placed, ..Drawn::default() }
}

/// The limit is the width of the area met with the screen, and so are the rows.
fn areas(report: &mut Report) {
    let examples = [
        ("inside the screen", Rect::new(1, 1, 3, 2), "xxxxx|xabcx|xdefx", counts(2, 6)),
        ("in one cell", Rect::new(4, 2, 1, 1), "xxxxx|xxxxx|xxxxa", counts(1, 1)),
        ("over the right edge", Rect::new(3, 1, 9, 2), "xxxxx|xxxab|xxxcd", counts(2, 4)),
        ("over the lower edge", Rect::new(0, 2, 5, 9), "xxxxx|xxxxx|abcde", counts(1, 5)),
        ("over both", Rect::new(3, 1, 65_535, 65_535), "xxxxx|xxxab|xxxcd", counts(2, 4)),
    ];
    for by in BOTH {
        for (name, area, symbols, counts) in examples {
            same(report, name, by, "abcdef", area, plain().text(), (symbols, counts));
        }
    }
}

/// An area off the screen or without a cell gets no line, and the counts are 0.
fn nothing_met(report: &mut Report) {
    let areas = [
        ("at the right of the screen", Rect::new(5, 0, 3, 3)),
        ("below the screen", Rect::new(0, 3, 3, 3)),
        ("at the end of 16 bits", Rect::new(65_535, 65_535, 65_535, 65_535)),
        ("in no column", Rect::new(1, 1, 0, 2)),
        ("in no row", Rect::new(1, 1, 2, 0)),
        ("in four zeros", Rect::new(0, 0, 0, 0)),
    ];
    for by in BOTH {
        for (name, area) in areas {
            let expected = ("xxxxx|xxxxx|xxxxx", Drawn::default());
            same(report, name, by, "abc", area, plain().text(), expected);
        }
    }
}

/// Alignment, wrapping and scrolling go by the met area.
fn settings(report: &mut Report) {
    let right = Notice { alignment: Alignment::Right, ..plain() };
    let centre = Notice { alignment: Alignment::Center, ..plain() };
    let unwrapped = Notice { wrap: Wrap::Off { column: 1 }, ..plain() };
    let scrolled = Notice { scroll: 1, ..plain() };
    let area = Rect::new(1, 2, 9, 9);
    let examples = [
        ("aligned right", right, "ab", "xxxxx|xxxxx|xxxab", counts(1, 2)),
        ("centred", centre, "ab", "xxxxx|xxxxx|xxabx", counts(1, 2)),
        ("unwrapped", unwrapped, "abcdefg", "xxxxx|xxxxx|xbcde", counts(1, 4)),
        ("scrolled down", scrolled, "abcdef", "xxxxx|xxxxx|xefxx", counts(1, 2)),
    ];
    for by in BOTH {
        for (name, notice, letters, symbols, counts) in examples {
            let name = format!("over the edge, {name}");
            same(report, &name, by, letters, area, notice.text(), (symbols, counts));
        }
    }
}

/// A glyph is clipped at the right edge of the met area, so one that the screen cuts is clipped by
/// C-14, though it has room in the area given. The Rust writes it.
fn halved(report: &mut Report) {
    let counts = Drawn { rows: 1, placed: 2, clipped: 1, halved: 1 };
    let area = Rect::new(2, 0, 9, 1);
    let shown = [(By::Rust, "xxabW"), (By::Rules, "xxab_")];
    for (by, row) in shown {
        let symbols = format!("{row}|xxxxx|xxxxx");
        let expected = (symbols.as_str(), counts);
        same(report, "halved by the screen's edge", by, "abW", area, plain().text(), expected);
    }
}

/// The paragraph style is laid over the met area, with a glyph or not, and over no other cell. Then
/// a glyph has the text style.
fn paragraph_style(report: &mut Report) {
    let [background, foreground] = [1 << 54 | 100 << 46, 1 << 63 | 200 << 55];
    let settings = Notice { style: 1, text_style: 2, ..plain() }.text();
    for by in BOTH {
        let mut screen = Screen::blank(3, 2).with_styles(&[0, background, foreground]);
        let drawn = by.draw_text(&mut screen, &line(0, "a"), Rect::new(1, 0, 9, 1), settings);
        let got = drawn.map(|drawn| (drawn, screen.cells));
        let mut cells = vec![BLANK_CELL; 6];
        cells[1] = u64::from('a') << 43 | 200 << 35 | 100 << 27;
        cells[2] = BLANK_CELL | 100 << 27;
        let expected = Outcome::Value((counts(1, 1), cells));
        report.same(&format!("text, paragraph style over the met area: {by}"), expected, got);
    }
}
