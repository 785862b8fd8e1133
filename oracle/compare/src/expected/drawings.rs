//! The expected answers of the calls that draw, and of the two that draw a notice.

use oracle::{Drawn, Outcome};
use rules::screen::Area;
use rules::{apart, frame, lines, notice};

use super::{COUNTS, Expected, RULES, RUST, numbers, screen, settled};
use crate::answer::Answer;
use crate::input::{Call, Input};
use crate::{refusals, settings};

pub fn draw_block(input: &Input) -> Expected {
    let Input { columns, rows, ref styles, ref titles, area, block, .. } = *input;
    let (area, block) = (settings::rect(area), settings::block(block));
    let ambiguous = settings::ambiguous(input.settings);
    let mut cells = input.cells.clone();
    let outcome =
        oracle::draw_block(columns, rows, &mut cells, styles, titles, ambiguous, area, block);
    let rules = || {
        let mut screen = screen(input);
        let met = frame::met(area.into(), &screen);
        frame::draw(&mut screen, &block, &lines(titles, ambiguous), met);
        screen.cells
    };
    settled(outcome.map(|()| cells), rules, |cells| Answer::drawn([], cells))
}

/// C-15: "one draws the frame, paragraph style first, and answers the inner area".
pub fn draw_frame(input: &Input) -> Expected {
    let Input { columns, rows, ref styles, ref titles, area, block, .. } = *input;
    let (area, block) = (settings::rect(area), settings::block(block));
    let (ambiguous, style) = (settings::ambiguous(input.settings), input.settings.style);
    let mut cells = input.cells.clone();
    let outcome = oracle::draw_frame(
        columns, rows, &mut cells, styles, titles, ambiguous, area, style, block,
    );
    let rules = || {
        let mut screen = screen(input);
        let area = area.into();
        let inner = apart::draw_frame(&mut screen, titles, ambiguous, area, style, &block);
        (inner, screen.cells)
    };
    let answer = |(inner, cells)| Answer::drawn(numbers(inner), cells);
    settled(outcome.map(|inner| (Area::from(inner), cells)), rules, answer)
}

/// C-15: "one lays paragraph style and text into a given area, met with the screen first".
pub fn draw_text(input: &Input) -> Expected {
    let Input { columns, rows, ref styles, ref text, .. } = *input;
    let (area, settings) = (settings::rect(input.area), settings::text(input.settings));
    let answer = |drawn: Drawn, cells| Answer::drawn(counts(drawn), cells);
    let mut cells = input.cells.clone();
    let rust = oracle::draw_text(columns, rows, &mut cells, styles, text, area, settings)
        .map(|drawn| (drawn, answer(drawn, cells)));
    let rules = || {
        let mut screen = screen(input);
        let drawn = apart::draw_text(&mut screen, text, area.into(), &settings);
        (drawn, answer(drawn, screen.cells))
    };
    let counted = |cells| {
        oracle::text_counts(columns, rows, text, area, settings).map(|drawn| answer(drawn, cells))
    };
    unless_clipped(rust, rules, counted)
}

fn counts(drawn: Drawn) -> [u64; 3] {
    [drawn.rows, drawn.placed, drawn.clipped].map(u64::from)
}

/// Returns the Rust's answer if it clips no glyph. Else the cells must be those of the crate
/// `rules`, and the counts must also equal those over the Rust's lines. C-14: "Inputs with such a
/// glyph leave the cell comparison with the crate, while composed lines remain in it."
fn unless_clipped(
    rust: Outcome<(Drawn, Answer)>,
    rules: impl FnOnce() -> (Drawn, Answer),
    counted: impl FnOnce(Vec<u64>) -> Outcome<Answer>,
) -> Expected {
    let panicked = match rust {
        Outcome::Value((drawn, answer)) if drawn.clipped == 0 => {
            return Expected { answers: vec![(RUST, answer)], ..Expected::default() };
        }
        Outcome::Value(_) => false,
        Outcome::Panicked(_) => true,
    };
    let (Drawn { clipped, halved, .. }, answer) = rules();
    let counted = counted(answer.words.clone());
    let mut answers = vec![(RULES, answer)];
    if let Outcome::Value(answer) = counted {
        answers.push((COUNTS, answer));
    }
    let (clipped, halved) = (clipped > 0, halved > 0);
    Expected { answers, clipped, halved, panicked, ..Expected::default() }
}

/// Frame, then text into the area that it answered. Each call is refused for its own causes. The
/// text of a refused frame goes into four zeros, which have no cell.
pub fn pair(input: &Input) -> Expected {
    let [frame, text] = [Call::DrawFrame, Call::DrawText].map(|call| refusals::number(call, input));
    match [frame, text] {
        [0, 0] => both(input),
        [0, _] => frame_alone(input, text),
        _ => {
            let untouched = Answer::drawn([u64::from(text)], input.cells.clone());
            let answers = vec![(RULES, Answer { number: frame, ..untouched })];
            Expected { answers, refused: true, ..Expected::default() }
        }
    }
}

/// The frame of a pair whose text is refused: the cells stay as the frame left them.
fn frame_alone(input: &Input, text: u32) -> Expected {
    let mut expected = draw_frame(input);
    for (_, answer) in &mut expected.answers {
        let [x, y, width, height, ..] = answer.values;
        answer.values = [text.into(), x, y, width, height, 0, 0, 0];
    }
    Expected { refused: true, ..expected }
}

/// C-15: "Where both are accepted, given the same notice and the cells left alone between, frame,
/// then text into the area it answered, must leave the cells and counts that the combined drawing
/// defined": those of the Rust's `Paragraph` with its block.
fn both(input: &Input) -> Expected {
    let Input { columns, rows, ref styles, ref text, ref titles, .. } = *input;
    let area = settings::rect(input.area);
    let settings = settings::notice(input.block, input.settings);
    let answer = |inner: Area, drawn: Drawn, cells| {
        let ([x, y, width, height], [rows, placed, clipped]) = (numbers(inner), counts(drawn));
        Answer::drawn([0, x, y, width, height, rows, placed, clipped], cells)
    };
    let inner = || oracle::drawn_inner(columns, rows, titles, area, settings.block).map(Area::from);
    let mut cells = input.cells.clone();
    let rust = oracle::draw_notice(columns, rows, &mut cells, styles, text, titles, area, settings)
        .and_then(|drawn| inner().map(|inner| (drawn, answer(inner, drawn, cells))));
    let rules = || {
        let mut screen = screen(input);
        let drawn = notice::draw(&mut screen, text, titles, area.into(), &settings);
        let met = frame::met(area.into(), &screen);
        let inner = frame::inner(&settings.block, &lines(titles, settings.ambiguous), met);
        (drawn, answer(inner, drawn, screen.cells))
    };
    let counted = |cells| {
        oracle::notice_counts(columns, rows, text, titles, area, settings)
            .and_then(|drawn| inner().map(|inner| answer(inner, drawn, cells)))
    };
    unless_clipped(rust, rules, counted)
}
