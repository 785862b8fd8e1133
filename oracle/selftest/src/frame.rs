//! Inner areas, borders, titles and shadows.

use oracle::AmbiguousWidth::{self, Narrow};
use oracle::{
    Alignment, Block, BorderSet, Borders, Effect, Outcome, Padding, Rect, Shadow, horizontal_space,
    inner, proportional_padding, vertical_space,
};

use crate::notation::line;
use crate::report::Report;
use crate::screen::{BLANK_CELL, Screen};

pub fn run(report: &mut Report) {
    inner_areas(report);
    borders(report);
    titles(report);
    shadows(report);
    overlay(report);
    no_cell(report);
    overflow(report);
}

const ALL: Borders = Borders { top: true, right: true, bottom: true, left: true };

/// Returns a frame with a distinct symbol for each of its eight parts.
pub fn bordered() -> Block {
    let symbol = u32::from;
    Block {
        borders: ALL,
        border_set: BorderSet {
            top_left: symbol('1'),
            top_right: symbol('2'),
            bottom_left: symbol('3'),
            bottom_right: symbol('4'),
            vertical_left: symbol('l'),
            vertical_right: symbol('r'),
            horizontal_top: symbol('t'),
            horizontal_bottom: symbol('b'),
        },
        ..Block::default()
    }
}

fn inner_areas(report: &mut Report) {
    let got = inner(bordered(), &[], Rect::new(0, 0, 1, 1));
    let name = "inner of (0,0,1,1), four borders";
    report.same(name, Outcome::Value(Rect::new(1, 1, 0, 0)), got);

    let padded = Block { padding: Padding::new(2, 3, 1, 4), ..Block::default() };
    let title_below = [1 << 31 | 1 << 27];
    let got = inner(padded, &title_below, Rect::new(65_530, 0, 10, 10));
    let expected = Rect::new(65_532, 1, 5, 4);
    report.same("inner of a padded block with a bottom title", Outcome::Value(expected), got);
    let got = vertical_space(padded, &title_below);
    report.same("vertical space of the same", Outcome::Value((1, 5)), got);
    let got = horizontal_space(padded, &title_below);
    report.same("horizontal space of the same", Outcome::Value((2, 3)), got);
}

fn borders(report: &mut Report) {
    let mut screen = Screen::blank(5, 4);
    let outcome = screen.draw_block(&[], Narrow, Rect::new(1, 1, 9, 9), bordered());
    let got = outcome.map(|()| screen.symbols());
    let expected = "_____|_1tt2|_l__r|_3bb4".to_owned();
    report.same("borders around the met area", Outcome::Value(expected), got);

    let top_left = Borders { right: false, bottom: false, ..ALL };
    let mut screen = Screen::blank(3, 3);
    let block = Block { borders: top_left, ..bordered() };
    let outcome = screen.draw_block(&[], Narrow, Rect::new(0, 0, 3, 3), block);
    let got = outcome.map(|()| screen.symbols());
    let name = "two borders: a corner where both stand";
    report.same(name, Outcome::Value("1tt|l__|l__".to_owned()), got);

    let mut screen = Screen::blank(1, 1);
    let outcome = screen.draw_block(&[], Narrow, Rect::new(0, 0, 1, 1), bordered());
    let got = outcome.map(|()| screen.symbols());
    report.same("one cell: the top left corner is last", Outcome::Value("1".to_owned()), got);
}

/// Returns the row that titles draw on a block without borders.
pub fn title_row(
    columns: u16,
    titles: &[Vec<u32>],
    ambiguous: AmbiguousWidth,
    titles_alignment: Alignment,
) -> Outcome<String> {
    let mut screen = Screen::blank(u32::from(columns), 1);
    let area = Rect::new(0, 0, columns, 1);
    let block = Block { titles_alignment, ..Block::default() };
    let outcome = screen.draw_block(&titles.concat(), ambiguous, area, block);
    outcome.map(|()| screen.symbols())
}

fn titles(report: &mut Report) {
    let examples = [
        ("centred abcd, efg in 5", 5, vec![line(1, "abcd"), line(1, "efg")], "bcd_e"),
        ("centred a, bcdefg in 4", 4, vec![line(1, "a"), line(1, "bcdefg")], "_fg_"),
        ("left ab, right cd in 7", 7, vec![line(0, "ab"), line(2, "cd")], "ab___cd"),
        ("right abcd in 3 hides a", 3, vec![line(2, "abcd")], "bcd"),
        ("right Wab in 3: W straddles the hidden edge", 3, vec![line(2, "Wab")], "_ab"),
        ("left abW in 3 stops at W", 3, vec![line(0, "abW")], "ab_"),
        ("zero width isn't drawn", 3, vec![line(0, "aZ")], "a__"),
    ];
    for (name, columns, titles, expected) in examples {
        let got = title_row(columns, &titles, Narrow, Alignment::Left);
        report.same(&format!("titles: {name}"), Outcome::Value(expected.to_owned()), got);
    }
    let got = title_row(3, &[line(3, "abcd")], Narrow, Alignment::Right);
    let name = "titles: right by default, none given: drawn left";
    report.same(name, Outcome::Value("abc".to_owned()), got);
}

fn shadow_of(x: i32, y: i32, area: Rect) -> Outcome<String> {
    let mut screen = Screen::blank(5, 4);
    let block = Block {
        shadow: Shadow::Present { effect: Effect::Symbol(u32::from('s')), style: 0, x, y },
        ..bordered()
    };
    let outcome = screen.draw_block(&[], Narrow, area, block);
    outcome.map(|()| screen.symbols())
}

fn shadows(report: &mut Report) {
    let area = Rect::new(1, 1, 2, 2);
    let examples = [
        ("held at 0", -9, -9, "ss___|s12__|_34__|_____"),
        ("lowest offset", i32::MIN, 0, "_____|s12__|s34__|_____"),
        ("spares the block", 1, 1, "_____|_12__|_34s_|__ss_"),
        ("cut at the screen's edge", 3, 2, "_____|_12__|_34__|____s"),
        ("off the screen", i32::MAX, i32::MAX, "_____|_12__|_34__|_____"),
    ];
    for (name, x, y, expected) in examples {
        let got = shadow_of(x, y, area);
        report.same(&format!("shadow: {name}"), Outcome::Value(expected.to_owned()), got);
    }
}

/// An overlay styles its cells, keeps their symbols and leaves the block's cells unchanged.
fn overlay(report: &mut Report) {
    let background = 1 << 54 | 100 << 46;
    let mut screen = Screen::blank(3, 1).with_styles(&[0, background]);
    let shadow = Shadow::Present { effect: Effect::Overlay, style: 1, x: 1, y: 0 };
    let block = Block { shadow, ..Block::default() };
    let outcome = screen.draw_block(&[], Narrow, Rect::new(0, 0, 2, 1), block);
    let got = outcome.map(|()| screen.cells.clone());
    let expected = vec![BLANK_CELL, BLANK_CELL, BLANK_CELL | 100 << 27];
    report.same("shadow: an overlay only styles", Outcome::Value(expected), got);
}

fn no_cell(report: &mut Report) {
    let got = shadow_of(-5, 0, Rect::new(5, 0, 3, 3));
    let expected = "_____|_____|_____|_____".to_owned();
    report.same("an empty meeting draws nothing, no shadow either", Outcome::Value(expected), got);
}

fn overflow(report: &mut Report) {
    let expected = Outcome::Value(Padding::new(6, 6, 3, 3));
    report.same("proportional padding of 3", expected, proportional_padding(3));
    let expected = Outcome::Panicked("attempt to multiply with overflow".to_owned());
    report.same("proportional padding of 40,000", expected, proportional_padding(40_000));
}
