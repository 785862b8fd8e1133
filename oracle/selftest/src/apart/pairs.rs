//! "Frame, then text into the area it answered, must leave the cells and counts that the combined
//! drawing defined."

use oracle::{Alignment, Block, Drawn, Effect, Notice, Outcome, Padding, Rect, Shadow, Wrap};

use super::calls::{BOTH, By};
use crate::frame::bordered;
use crate::notation::line;
use crate::notices::plain;
use crate::report::Report;
use crate::screen::Screen;

pub fn run(report: &mut Report) {
    shown(report);
    combined(report);
    clock(report);
}

/// Styles that each change another field, and none of the symbols.
const STYLES: [u64; 6] = [
    0,
    1 << 63 | 200 << 55,
    1 << 54 | 100 << 46,
    1 << 63 | 201 << 55 | 3 << 37,
    1 << 54 | 101 << 46 | 2 << 28,
    12 << 37 | 1 << 28,
];

/// A frame with a style for each of its parts, padded, and with a shadow.
fn styled() -> Block {
    let effect = Effect::Symbol(u32::from('s'));
    Block {
        border_style: 3,
        style: 4,
        titles_style: 5,
        shadow: Shadow::Present { effect, style: 1, x: 1, y: 1 },
        ..bordered()
    }
}

fn notice() -> Notice {
    Notice { block: styled(), style: 2, text_style: 1, ..plain() }
}

/// A screen whose cells all differ.
fn screen() -> Screen {
    let mut screen = Screen::blank(8, 5).with_styles(&STYLES);
    for (place, cell) in (0..).zip(&mut screen.cells) {
        *cell = (place + 33) << 43 | (place * 40_503) << 3;
    }
    screen
}

/// A whole notice on blank cells.
fn shown(report: &mut Report) {
    for by in BOTH {
        let mut screen = Screen::blank(8, 5).with_styles(&STYLES);
        let area = Rect::new(0, 0, 6, 4);
        let drawn = by.draw_pair(&mut screen, &line(0, "ab_cd"), &line(0, "T"), area, notice());
        let got = drawn.map(|(inner, drawn)| (screen.symbols(), inner, drawn));
        let symbols = "1Tttt2__|lab__rs_|lcd__rs_|3bbbb4s_|_ssssss_".to_owned();
        let counts = Drawn { rows: 2, placed: 4, ..Drawn::default() };
        let expected = Outcome::Value((symbols, Rect::new(1, 1, 4, 2), counts));
        report.same(&format!("frame, then text: {by}"), expected, got);
    }
}

/// The pair beside the combined drawing, on cells that all differ.
fn combined(report: &mut Report) {
    let padded = Block { padding: Padding::new(1, 1, 1, 0), ..styled() };
    let wide = Block { padding: Padding::new(9, 9, 0, 0), ..styled() };
    let examples = [
        ("inside the screen", Rect::new(1, 0, 6, 4), notice()),
        ("over the edges", Rect::new(4, 2, 9, 9), notice()),
        ("off the screen", Rect::new(9, 2, 3, 3), notice()),
        ("without a frame", Rect::new(2, 1, 4, 3), Notice { block: Block::default(), ..notice() }),
        ("without an inner cell", Rect::new(2, 1, 2, 2), notice()),
        ("padded", Rect::new(0, 0, 8, 5), Notice { block: padded, ..notice() }),
        ("padded past the screen", Rect::new(0, 0, 8, 5), Notice { block: wide, ..notice() }),
        ("centred", Rect::new(0, 0, 8, 4), Notice { alignment: Alignment::Center, ..notice() }),
        ("unwrapped", Rect::new(0, 0, 6, 4), Notice { wrap: Wrap::Off { column: 1 }, ..notice() }),
        ("scrolled", Rect::new(0, 0, 6, 4), Notice { scroll: 1, ..notice() }),
    ];
    let text = [line(3, "ab_cd"), line(3, "efgh")].concat();
    let titles = [line(0, "T"), line(2, "uv")].concat();
    for by in BOTH {
        for (name, area, notice) in examples {
            let [mut apart, mut whole] = [screen(), screen()];
            let got = by.draw_pair(&mut apart, &text, &titles, area, notice);
            let got = got.map(|(_, drawn)| (drawn, apart.cells));
            let expected = by.draw_combined(&mut whole, &text, &titles, area, notice);
            let expected = expected.map(|drawn| (drawn, whole.cells));
            report.same(&format!("pair and combined drawing, {name}: {by}"), expected, got);
        }
    }
}

/// The inner area of the clock.
const CLOCK: Rect = Rect::new(1, 1, 5, 2);

/// "The clock redraws one word each minute and drags the whole frame with it."
fn clock(report: &mut Report) {
    for by in BOTH {
        let mut screen = screen();
        let area = Rect::new(0, 0, 7, 4);
        let drawn = by.draw_pair(&mut screen, &line(0, "12:59"), &[], area, notice());
        let got = drawn.map(|(inner, drawn)| (inner, drawn.placed));
        let expected = Outcome::Value((CLOCK, 5));
        report.same(&format!("clock: 12:59 drawn with its frame: {by}"), expected, got);
        redrawn(report, by, &mut screen, "13:00", "13:00");
        // A cell without a glyph keeps its symbol.
        redrawn(report, by, &mut screen, "9", "93:00");
    }
}

/// Draws a word into the inner area of the clock: the cells of the frame and of its shadow stay.
fn redrawn(report: &mut Report, by: By, screen: &mut Screen, word: &str, expected: &str) {
    let before = screen.cells.clone();
    let drawn = by.draw_text(screen, &line(0, word), CLOCK, notice().text());
    let inside = |place: usize| (1..6).contains(&(place % 8)) && (1..3).contains(&(place / 8));
    let changed = (0..40).filter(|&place| screen.cells[place] != before[place]);
    let outside = changed.filter(|&place| !inside(place)).count();
    let row = screen.symbols()[10..15].to_owned();
    let got = drawn.map(|drawn| (row, drawn.placed, outside));
    let expected = Outcome::Value((expected.to_owned(), word.len() as u32, 0));
    report.same(&format!("clock: {word} drawn again: {by}"), expected, got);
}
