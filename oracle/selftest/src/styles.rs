//! "Applying it sets the given colours, then sets the add bits, then clears the remove bits", and
//! the order in which styles are applied.

use oracle::AmbiguousWidth::Narrow;
use oracle::{Block, Notice, Outcome, Rect};

use crate::notation::{glyph, head};
use crate::notices::plain;
use crate::report::Report;
use crate::screen::{BLANK_CELL, Screen};

pub fn run(report: &mut Report) {
    added_and_removed(report);
    colours(report);
    text_style_then_own(report);
}

/// Returns a style without colours.
const fn modifiers(add: u64, remove: u64) -> u64 {
    add << 37 | remove << 28
}

fn modifiers_of(cell: u64) -> u64 {
    cell >> 18 & 0x1ff
}

fn added_and_removed(report: &mut Report) {
    let mut screen = Screen::filled(1, 1, BLANK_CELL | 0b1_0000_0101 << 18)
        .with_styles(&[modifiers(0b11, 0b01)]);
    let outcome = screen.draw_block(&[], Narrow, Rect::new(0, 0, 1, 1), Block::default());
    let got = outcome.map(|()| modifiers_of(screen.cells[0]));
    report.same("a bit added and removed ends cleared", Outcome::Value(0b1_0000_0110), got);
}

fn colours(report: &mut Report) {
    let (foreground, background) = (1 << 63 | 200 << 55, 1 << 54 | 100 << 46);
    let found = BLANK_CELL | 7 << 35 | 9 << 27;
    let examples = [
        ("foreground alone", foreground, BLANK_CELL | 200 << 35 | 9 << 27),
        ("background alone", background, BLANK_CELL | 7 << 35 | 100 << 27),
        ("a colour that isn't given", 200 << 55 | 100 << 46, found),
    ];
    for (name, style, expected) in examples {
        let mut screen = Screen::filled(1, 1, found).with_styles(&[style]);
        let outcome = screen.draw_block(&[], Narrow, Rect::new(0, 0, 1, 1), Block::default());
        let got = outcome.map(|()| screen.cells[0]);
        report.same(&format!("colours: {name}"), Outcome::Value(expected), got);
    }

    let text_style = foreground | background;
    let own_style = 1 << 63 | 201 << 55;
    let mut screen = Screen::blank(1, 1).with_styles(&[0, text_style, own_style]);
    let outcome = screen.draw_notice(&styled_glyph(), Rect::new(0, 0, 1, 1), styled_notice());
    let got = outcome.map(|_| screen.cells[0]);
    let expected = u64::from('a') << 43 | 201 << 35 | 100 << 27;
    report.same("colours: the glyph's own come last", Outcome::Value(expected), got);
}

/// Returns a text of one glyph with style number 2.
fn styled_glyph() -> Vec<u32> {
    vec![head(0), glyph('a') | 2]
}

/// Returns a notice with text style number 1.
fn styled_notice() -> Notice {
    Notice { text_style: 1, ..plain() }
}

/// The Rust combines the two styles before applying them. For every combination of two styles on
/// one bit, clear and set, the result must be that of applying both in turn.
fn text_style_then_own(report: &mut Report) {
    let apply = |bit: u64, (add, remove): (u64, u64)| (bit | add) & !remove;
    let ways = [(0, 0), (1, 0), (0, 1), (1, 1)];
    let (text, notice) = (styled_glyph(), styled_notice());
    let mut wrong = Vec::new();
    for bit in [0, 1] {
        for first in ways {
            for own in ways {
                let styles = [0, modifiers(first.0, first.1), modifiers(own.0, own.1)];
                let mut screen = Screen::filled(1, 1, BLANK_CELL | bit << 18).with_styles(&styles);
                let outcome = screen.draw_notice(&text, Rect::new(0, 0, 1, 1), notice);
                let got = outcome.map(|_| modifiers_of(screen.cells[0]));
                if got != Outcome::Value(apply(apply(bit, first), own)) {
                    wrong.push((bit, first, own));
                }
            }
        }
    }
    report.same("text style, then the glyph's own: all 32 ways", vec![], wrong);
}
