//! The frame alone: its cells, and the inner area that it answers.

use oracle::{Block, Borders, Effect, Outcome, Padding, Rect, Shadow};

use super::calls::{BOTH, By};
use crate::frame::bordered;
use crate::notation::line;
use crate::report::Report;
use crate::screen::{BLANK_CELL, Screen};

pub fn run(report: &mut Report) {
    drawn(report);
    nothing_met(report);
    paragraph_style_first(report);
}

/// Compares the symbols of a frame on a blank screen, and its inner area.
fn same(
    report: &mut Report,
    name: &str,
    titles: &[u32],
    [columns, rows]: [u32; 2],
    area: Rect,
    block: Block,
    expected: (&str, Rect),
) {
    for by in BOTH {
        let mut screen = Screen::blank(columns, rows);
        let inner = by.draw_frame(&mut screen, titles, area, 0, block);
        let got = inner.map(|inner| (screen.symbols(), inner));
        let (symbols, inner) = expected;
        let name = format!("frame {name}: {by}");
        report.same(&name, Outcome::Value((symbols.to_owned(), inner)), got);
    }
}

fn drawn(report: &mut Report) {
    let (framed, unframed) = (bordered(), Block::default());
    let inside = Rect::new(1, 0, 4, 3);
    let expected = ("_1tt2_|_l__r_|_3bb4_|______", Rect::new(2, 1, 2, 1));
    same(report, "inside the screen", &[], [6, 4], inside, framed, expected);

    let overhanging = Rect::new(1, 1, 9, 9);
    let expected = ("_____|_1tt2|_l__r|_3bb4", Rect::new(2, 2, 2, 1));
    same(report, "over the edges of the screen", &[], [5, 4], overhanging, framed, expected);

    let expected = ("12_|34_", Rect::new(1, 1, 0, 0));
    let tight = Rect::new(0, 0, 2, 2);
    same(report, "without an inner cell", &[], [3, 2], tight, framed, expected);

    let whole = Rect::new(0, 0, 3, 2);
    let expected = ("ab_|___", Rect::new(0, 1, 3, 1));
    same(report, "of a title alone", &line(0, "ab"), [3, 2], whole, unframed, expected);

    let padded = Block { padding: Padding::new(9, 0, 0, 0), ..unframed };
    let expected = ("___|___", Rect::new(9, 0, 0, 2));
    same(report, "padded by more than its width", &[], [3, 2], whole, padded, expected);

    let effect = Effect::Symbol(u32::from('s'));
    let shadow = Shadow::Present { effect, style: 0, x: 1, y: 1 };
    let expected = ("12_|34s|_ss", Rect::new(1, 1, 0, 0));
    same(report, "with a shadow", &[], [3, 3], tight, Block { shadow, ..framed }, expected);
}

/// Where nothing is met, no cell is drawn, and the answer is the inner area of the empty meeting.
fn nothing_met(report: &mut Report) {
    let effect = Effect::Symbol(u32::from('s'));
    let shadow = Shadow::Present { effect, style: 0, x: -7, y: 0 };
    let (framed, unframed) = (Block { shadow, ..bordered() }, Block::default());
    let examples = [
        ("at the right of the screen", Rect::new(7, 1, 3, 2), unframed, Rect::new(7, 1, 0, 1)),
        ("at the right, bordered", Rect::new(7, 1, 3, 2), framed, Rect::new(7, 2, 0, 0)),
        ("below the screen", Rect::new(1, 9, 2, 2), unframed, Rect::new(1, 9, 2, 0)),
        ("below, bordered", Rect::new(1, 9, 2, 2), framed, Rect::new(2, 9, 0, 0)),
        ("in no cell", Rect::new(1, 1, 0, 0), framed, Rect::new(1, 1, 0, 0)),
        ("in four zeros", Rect::new(0, 0, 0, 0), unframed, Rect::new(0, 0, 0, 0)),
        (
            "at the end of 16 bits",
            Rect::new(65_535, 65_535, 65_535, 65_535),
            framed,
            Rect::new(65_535, 65_535, 0, 0),
        ),
    ];
    for (name, area, block, inner) in examples {
        same(report, name, &[], [3, 2], area, block, ("___|___", inner));
    }
}

/// The block's style and the border's come after the paragraph's, which has the inner cells too.
fn paragraph_style_first(report: &mut Report) {
    let paragraph = 1 << 63 | 200 << 55 | 1 << 54 | 100 << 46;
    let [block_style, border_style] = [1 << 54 | 101 << 46, 1 << 63 | 201 << 55];
    let block = Block {
        borders: Borders { left: true, ..Borders::default() },
        style: 2,
        border_style: 3,
        ..bordered()
    };
    for by in BOTH {
        let mut screen =
            Screen::blank(3, 1).with_styles(&[0, paragraph, block_style, border_style]);
        let inner = by.draw_frame(&mut screen, &[], Rect::new(0, 0, 2, 1), 1, block);
        let got = inner.map(|inner| (inner, screen.cells));
        let cells = vec![
            u64::from('l') << 43 | 201 << 35 | 101 << 27,
            BLANK_CELL | 200 << 35 | 101 << 27,
            BLANK_CELL,
        ];
        let expected = Outcome::Value((Rect::new(1, 0, 1, 1), cells));
        report.same(&format!("frame, paragraph style first: {by}"), expected, got);
        unstyled(report, by, block);
    }
}

/// A frame leaves the cells of its inner area if no style changes them.
fn unstyled(report: &mut Report, by: By, block: Block) {
    let block = Block { style: 0, border_style: 0, ..block };
    let mut screen = Screen::filled(3, 1, u64::from('x') << 43);
    let inner = by.draw_frame(&mut screen, &[], Rect::new(0, 0, 2, 1), 0, block);
    let got = inner.map(|_| screen.symbols());
    let expected = Outcome::Value("lxx".to_owned());
    report.same(&format!("frame, symbols of inner cells are kept: {by}"), expected, got);
}
