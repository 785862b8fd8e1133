//! C-14: "From now on a glyph that starts inside and runs past the right edge is clipped: its first
//! cell gets the blank symbol, then the text style and the glyph's own as before, and it counts as
//! clipped in drawing and tally." The Rust writes such a glyph, so its cells are shown beside those
//! of the crate `rules`.

use oracle::AmbiguousWidth::{self, Narrow, Wide};
use oracle::{Alignment, Drawn, Notice, Outcome, Rect, Tally, Wrap, tally};

use crate::frame::bordered;
use crate::notation::{glyph, line};
use crate::notices::plain;
use crate::report::Report;
use crate::screen::Screen;

pub fn run(report: &mut Report) {
    tallies(report);
    cells(report);
    smallest(report);
    framed(report);
    styled(report);
    unwrapped(report);
}

/// A text, a reading, a limit and trim, with the counts placed, clipped, and halved of these.
type Counted = (&'static str, AmbiguousWidth, u16, bool, [u32; 3]);

const TALLIES: [Counted; 9] = [
    ("abW", Narrow, 3, true, [2, 1, 1]),
    ("abW", Narrow, 3, false, [2, 1, 1]),
    ("aT", Narrow, 3, true, [1, 1, 1]),
    ("abS", Narrow, 3, false, [2, 1, 1]),
    ("abA", Narrow, 3, true, [3, 0, 0]),
    ("abA", Wide, 3, true, [2, 1, 1]),
    // A glyph that ends at the edge is placed.
    ("aW", Narrow, 3, true, [2, 0, 0]),
    ("WW", Narrow, 4, true, [2, 0, 0]),
    // As before: the lines are a and WWx, and x starts at the edge.
    ("___aWWx", Narrow, 4, true, [3, 1, 0]),
];

/// The tally by the crate's composed lines, and by the crate `rules`.
fn tallies(report: &mut Report) {
    for (letters, ambiguous, limit, trim, expected) in TALLIES {
        let text = line(0, letters);
        let counts = |tally: Tally| [tally.placed, tally.clipped, tally.halved];
        let name = format!("tally {letters:?} limit {limit} trim {trim}, {ambiguous:?}");
        let got = tally(&text, ambiguous, limit, trim).map(counts);
        report.same(&name, Outcome::Value(expected), got);
        let got = counts(rules::compose::tally(&text, ambiguous, limit.into(), trim));
        report.same(&format!("{name}, by the rules"), expected, got);
    }
}

fn halves(rows: u32, placed: u32, clipped: u32, halved: u32) -> Drawn {
    Drawn { rows, placed, clipped, halved }
}

/// A text and its alignment in the first 3 columns of xxxxxx, then the cells that the Rust shows,
/// those by C-14, and the counts.
type Drawing = (&'static str, Alignment, [&'static str; 2], Drawn);

/// The cells past the edge aren't touched, however wide the glyph.
fn cells(report: &mut Report) {
    let drawings: [Drawing; 6] = [
        ("abW", Alignment::Left, ["abWxxx", "ab_xxx"], halves(1, 2, 1, 1)),
        ("aT", Alignment::Left, ["aTxxxx", "a_xxxx"], halves(1, 1, 1, 1)),
        ("abS", Alignment::Left, ["abSxxx", "ab_xxx"], halves(1, 2, 1, 1)),
        ("abW", Alignment::Center, ["abWxxx", "ab_xxx"], halves(1, 2, 1, 1)),
        ("abW", Alignment::Right, ["abWxxx", "ab_xxx"], halves(1, 2, 1, 1)),
        ("aW", Alignment::Left, ["aWxxxx", "aWxxxx"], halves(1, 2, 0, 0)),
    ];
    for (letters, alignment, expected, counts) in drawings {
        let notice = Notice { alignment, wrap: Wrap::On { trim: false }, ..plain() };
        let name = format!("{letters:?} in 3 columns, {alignment:?}");
        let screen = Screen::filled(6, 1, u64::from('x') << 43);
        let area = Rect::new(0, 0, 3, 1);
        both(report, &name, &screen, &line(3, letters), area, notice, expected, counts);
    }
}

/// Draws by the Rust and by the crate `rules`, and compares the symbols and the counts of each.
#[expect(clippy::too_many_arguments, reason = "a drawing has these")]
fn both(
    report: &mut Report,
    name: &str,
    screen: &Screen,
    text: &[u32],
    area: Rect,
    notice: Notice,
    [rust, rules]: [&str; 2],
    counts: Drawn,
) {
    let mut by_rust = screen.clone();
    let drawn = by_rust.draw_notice(text, area, notice);
    let got = drawn.map(|drawn| (by_rust.symbols(), drawn));
    report.same(&format!("{name}: the Rust"), Outcome::Value((rust.to_owned(), counts)), got);
    let mut by_rules = screen.clone();
    let drawn = by_rules.draw_by_rules(text, area, notice);
    let got = (by_rules.symbols(), drawn);
    report.same(&format!("{name}: by the rules"), (rules.to_owned(), counts), got);
}

/// The smallest input on which the Rust and C-14 differ.
fn smallest(report: &mut Report) {
    let (screen, area) = (Screen::blank(2, 1), Rect::new(0, 0, 2, 1));
    let (text, counts) = (line(0, "aW"), halves(1, 1, 1, 1));
    both(report, "\"aW\" in 2 columns", &screen, &text, area, plain(), ["aW", "a_"], counts);
}

/// In a frame the second cell of W would be the border.
fn framed(report: &mut Report) {
    let notice = Notice { block: bordered(), ..plain() };
    let area = Rect::new(0, 0, 5, 3);
    let expected = ["1ttt2|labWr|3bbb4", "1ttt2|lab_r|3bbb4"];
    let name = "\"abW\" in a frame";
    let screen = Screen::blank(5, 3);
    both(report, name, &screen, &line(0, "abW"), area, notice, expected, halves(1, 2, 1, 1));
}

/// The blank cell has the text style, then the glyph's own.
fn styled(report: &mut Report) {
    let (foreground, background) = (1 << 63 | 200 << 55, 1 << 54 | 100 << 46);
    let own = 1 << 63 | 201 << 55;
    let mut screen = Screen::filled(3, 1, u64::from('x') << 43);
    screen.styles = vec![0, foreground | background, own];
    let mut text = line(0, "aW");
    text[2] = glyph('W') | 2;
    let notice = Notice { text_style: 1, ..plain() };
    let drawn = screen.draw_by_rules(&text, Rect::new(0, 0, 2, 1), notice);
    let cell = |symbol: char, foreground: u64, background: u64| {
        u64::from(symbol) << 43 | foreground << 35 | background << 27
    };
    let expected = vec![cell('a', 200, 100), cell(' ', 201, 100), cell('x', 0, 0)];
    let name = "styles of a halved glyph's cell, by the rules";
    report.same(name, (expected, halves(1, 1, 1, 1)), (screen.cells, drawn));
}

/// Unwrapped lines never clip: the line ends before a glyph that would run past the edge, and one
/// half swallowed at the left is shown whole.
fn unwrapped(report: &mut Report) {
    let examples = [
        ("Wabc", 1, 4, "W_ab_", 3),
        ("abWc", 0, 3, "ab___", 2),
        ("abWc", 1, 3, "bW___", 2),
        ("abTc", 1, 3, "b____", 1),
    ];
    for (letters, column, columns, expected, placed) in examples {
        let notice = Notice { wrap: Wrap::Off { column }, ..plain() };
        let screen = Screen::blank(5, 1);
        let name = format!("unwrapped {letters:?} by {column} in {columns} columns");
        let area = Rect::new(0, 0, columns, 1);
        let counts = halves(1, placed, 0, 0);
        both(report, &name, &screen, &line(0, letters), area, notice, [expected; 2], counts);
    }
}
