//! The expected answer of a call: the Rust's, or if the Rust has none that of documents 01 and 02,
//! by the crate `rules`.

mod drawings;

use oracle::{AmbiguousWidth, ComposedLine, Notice, Outcome, Tally, Wrap};
use rules::compose::{Composed, compose, tally};
use rules::screen::{Area, Screen};
use rules::{frame, lines, measure};

use crate::answer::Answer;
use crate::input::{Call, Input};
use crate::records::is_marked;
use crate::{refusals, settings};

/// Answers that the call must all match, each with its source, and the kind of the input.
#[derive(Default)]
pub struct Expected {
    pub answers: Vec<(&'static str, Answer)>,
    pub refused: bool,
    pub clipped: bool,
    /// A clipped glyph starts inside and runs past the right edge.
    pub halved: bool,
    pub panicked: bool,
    /// How many entries of the list have C-17's mark: the last composed line of each text line.
    pub marked: u64,
    /// A text line has two or more entries.
    pub broken: bool,
}

const RUST: &str = "the Rust";
const RULES: &str = "documents 01 and 02";
const COUNTS: &str = "documents 01 and 02, counts over the Rust's lines";

pub fn expected(call: Call, input: &Input) -> Expected {
    // The two calls of a pair each have their own number.
    let number = if call == Call::Pair { 0 } else { refusals::number(call, input) };
    if number != 0 {
        return refused(number, call, input);
    }
    match call {
        Call::ListLines => list_lines(input),
        Call::Tally => tallied(input),
        Call::Inner => inner(input),
        Call::DrawBlock => drawings::draw_block(input),
        Call::DrawFrame => drawings::draw_frame(input),
        Call::DrawText => drawings::draw_text(input),
        Call::Pair => drawings::pair(input),
        Call::Pages => pages(input),
        Call::LineCount | Call::LineWidth => measured(call, input),
    }
}

/// A refused call returns its number and zeros, and leaves cells and list unchanged.
fn refused(number: u32, call: Call, input: &Input) -> Expected {
    let words = match call {
        Call::ListLines => input.list.clone(),
        Call::DrawBlock | Call::DrawFrame | Call::DrawText => input.cells.clone(),
        _ => Vec::new(),
    };
    let answers = vec![(RULES, Answer::refused(number, words))];
    Expected { answers, refused: true, ..Expected::default() }
}

/// Returns the Rust's answer, or that of the crate `rules` if the Rust panicked.
fn settled<T>(
    outcome: Outcome<T>,
    rules: impl FnOnce() -> T,
    answer: impl FnOnce(T) -> Answer,
) -> Expected {
    let (who, value, panicked) = match outcome {
        Outcome::Value(value) => (RUST, value, false),
        Outcome::Panicked(_) => (RULES, rules(), true),
    };
    Expected { answers: vec![(who, answer(value))], panicked, ..Expected::default() }
}

fn list_lines(input: &Input) -> Expected {
    let Input { ref text, limit, .. } = *input;
    let ambiguous = settings::ambiguous(input.settings);
    let (default_alignment, trim) =
        (settings::alignment(input.settings.alignment), input.trim == 1);
    let outcome = oracle::wrapped_lines(text, ambiguous, default_alignment, limit, trim)
        .map(|lines| lines.iter().map(ComposedLine::packed).collect());
    let rules = || {
        let wrap = Wrap::On { trim };
        let lines = compose(text, ambiguous, default_alignment, limit.into(), wrap).lines;
        lines.iter().map(Composed::entry).collect()
    };
    let mut entries: Vec<u64> = Vec::new();
    let expected = settled(outcome, rules, |all| {
        entries = all;
        let mut list = input.list.clone();
        for (place, entry) in list.iter_mut().zip(&entries) {
            *place = *entry;
        }
        Answer::drawn([entries.len() as u64], list)
    });
    if entries.len() > input.list.len() {
        return refused(refusals::SHORT_LIST, Call::ListLines, input);
    }
    let marked = entries.iter().filter(|entry| is_marked(**entry)).count();
    Expected { marked: marked as u64, broken: marked < entries.len(), ..expected }
}

/// If a glyph is clipped, the tally must also equal that of the crate `rules`.
fn tallied(input: &Input) -> Expected {
    let (text, limit, trim) = (&input.text, input.limit, input.trim == 1);
    let ambiguous = settings::ambiguous(input.settings);
    let rules = || tally(text, ambiguous, limit.into(), trim);
    let values = |tally: Tally| {
        let Tally { lines, placed, clipped, zero_width, over_wide, dropped, halved: _ } = tally;
        Answer::of([lines, placed, clipped, zero_width, over_wide, dropped].map(u64::from))
    };
    let mut expected = settled(oracle::tally(text, ambiguous, limit, trim), rules, values);
    expected.clipped = expected.answers[0].1.named(Call::Tally, "clipped") > 0;
    if expected.clipped {
        let tally = rules();
        expected.halved = tally.halved > 0;
        expected.answers.push((RULES, values(tally)));
    }
    expected
}

fn inner(input: &Input) -> Expected {
    let (block, area) = (settings::block(input.block), settings::rect(input.area));
    let outcome = oracle::inner(block, &input.titles, area).map(Area::from);
    let rules = || {
        let titles = lines(&input.titles, AmbiguousWidth::Narrow);
        frame::inner(&block, &titles, area.into())
    };
    settled(outcome, rules, |inner| Answer::of(numbers(inner)))
}

/// Returns the screen before a call, for the crate `rules`.
fn screen(input: &Input) -> Screen {
    Screen {
        columns: input.columns.into(),
        rows: input.rows.into(),
        cells: input.cells.clone(),
        styles: input.styles.clone(),
    }
}

/// Returns an area's x, y, width and height.
fn numbers(area: Area) -> [u64; 4] {
    area.numbers().map(|number| number as u64)
}

/// Pages are lines / height of the inner area, rounded up.
fn pages(input: &Input) -> Expected {
    let Input { columns, rows, ref text, ref titles, .. } = *input;
    let area = settings::rect(input.area);
    let settings = settings::notice(input.block, input.settings);
    let outcome = oracle::notice_lines(columns, rows, text, titles, area, settings)
        .map(|(inner, lines)| (inner.into(), lines.len()));
    let rules = || {
        let met = frame::met(area.into(), &screen(input));
        let inner = frame::inner(&settings.block, &lines(titles, settings.ambiguous), met);
        let Notice { ambiguous, alignment, wrap, .. } = settings;
        let lines = compose(text, ambiguous, alignment, inner.width, wrap).lines;
        (inner, if inner.is_empty() { 0 } else { lines.len() })
    };
    settled(outcome, rules, |(inner, lines): (Area, usize)| {
        let pages = lines.div_ceil(inner.height.max(1) as usize);
        let [x, y, width, height] = numbers(inner);
        Answer::of([x, y, width, height, lines as u64, pages as u64])
    })
}

fn measured(call: Call, input: &Input) -> Expected {
    let Input { ref text, ref titles, limit, .. } = *input;
    let (block, ambiguous) = (settings::block(input.block), settings::ambiguous(input.settings));
    let value = |value: u32| Answer::of([u64::from(value)]);
    if call == Call::LineWidth {
        let rules = || measure::line_width(text, ambiguous, &block);
        return settled(oracle::line_width(text, ambiguous, titles, block), rules, value);
    }
    let wrap = settings::wrap(input.settings);
    let rules = || measure::line_count(text, ambiguous, titles, &block, wrap, limit);
    settled(oracle::line_count(text, ambiguous, titles, block, wrap, limit), rules, value)
}
