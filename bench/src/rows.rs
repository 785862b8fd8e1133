//! The rows of the tables: a call and its input.

use oracle::AmbiguousWidth;

use crate::scene::Scene;
use crate::sides::Sides;
use crate::{composing, drawing, inputs};

/// The call that a row times.
#[derive(Clone, Copy)]
pub enum Call {
    /// `list_lines` at a limit, trimmed or untrimmed.
    List { limit: u16, trim: bool },
    /// `tally` at a limit, trimmed or untrimmed.
    Tally { limit: u16, trim: bool },
    /// A framed notice on a screen: `draw_frame`, then `draw_text` into the area that it returns.
    Notice { screen: [u16; 2], method: Method, page: Page },
    /// `draw_text` into the inner area of such a notice.
    Text { screen: [u16; 2], method: Method, page: Page },
    /// `draw_frame` of such a notice.
    Frame,
    /// `draw_text` of one word into an area of its size.
    Word,
    /// `draw_block` of a block that has only a style, on a whole screen.
    Style,
}

/// How the lines of a notice are composed.
#[derive(Clone, Copy, PartialEq, Eq)]
pub enum Method {
    Wrapped,
    Truncated,
    /// Truncated, and scrolled right as far as glyphs are shown.
    TruncatedAtEnd,
}

#[derive(Clone, Copy, PartialEq, Eq)]
pub enum Page {
    First,
    Last,
}

pub struct Row {
    pub name: &'static str,
    text: Making,
    call: Call,
    ambiguous: AmbiguousWidth,
}

/// Generates the text with a size in records and a number; some kinds have only one text of a size.
type Making = fn(usize, u32) -> Vec<u32>;

/// The screens of the rows whose sizes are screens: those without a text, and that of one word.
const SCREENS: [[u16; 2]; 3] = [[80, 24], [200, 60], [512, 256]];
const SIZES: [usize; 3] = [1_000, 4_000, 16_384];
/// Total records of the texts of each size. With a single small text, the processor would predict
/// its branches from the previous run.
const RECORDS: usize = SIZES[2];

/// Number of words drawn one after the other, on every screen.
const WORDS: usize = 60;

fn screen_cells(size: usize) -> usize {
    SCREENS[size].map(usize::from).iter().product()
}

impl Row {
    /// Returns the total records of the texts of a size, the number of cells of the screen, or the
    /// number of words.
    pub fn units(&self, size: usize) -> usize {
        match self.call {
            Call::Frame | Call::Style => screen_cells(size),
            Call::Word => WORDS,
            _ => SIZES[size] * (RECORDS / SIZES[size]),
        }
    }

    /// Returns the size to print: of one text, or of the screen.
    pub fn size(&self, size: usize) -> usize {
        match self.call {
            Call::Frame | Call::Word | Call::Style => screen_cells(size),
            _ => SIZES[size],
        }
    }

    /// Returns the texts of a size.
    fn texts(&self, size: usize) -> Vec<Vec<u32>> {
        let count = match self.call {
            Call::Word => WORDS,
            _ => RECORDS / SIZES[size],
        };
        let text = |number| self.given((self.text)(SIZES[size], number));
        (0..count as u32).map(text).collect()
    }

    /// Returns records as the row has them: half of the letters are ambiguous if they are read wide.
    fn given(&self, records: Vec<u32>) -> Vec<u32> {
        match self.ambiguous {
            AmbiguousWidth::Narrow => records,
            AmbiguousWidth::Wide => inputs::half_ambiguous(&records),
        }
    }

    /// Prepares a size of the row for every side and passes the sides to `work`.
    pub fn with_sides<T>(&self, size: usize, work: impl FnOnce(&mut Sides) -> T) -> T {
        let (texts, titles) = (self.texts(size), self.given(inputs::titles()));
        let ambiguous = self.ambiguous;
        match self.call {
            Call::List { limit, trim } => composing::list(&texts, ambiguous, limit, trim, work),
            Call::Tally { limit, trim } => composing::tally(&texts, ambiguous, limit, trim, work),
            Call::Notice { screen, method, page } => {
                let scene = Scene::framed(screen, titles, ambiguous);
                drawing::texts(&scene, &texts, method, page, work)
            }
            Call::Text { screen, method, page } => {
                let scene = Scene::inside(screen, titles, ambiguous);
                drawing::texts(&scene, &texts, method, page, work)
            }
            Call::Frame => drawing::frame(&Scene::framed(SCREENS[size], titles, ambiguous), work),
            Call::Word => {
                let scene = Scene::line(SCREENS[size], inputs::CLOCK_GLYPHS);
                drawing::texts(&scene, &texts, Method::Wrapped, Page::First, work)
            }
            Call::Style => drawing::style(SCREENS[size], work),
        }
    }
}

const fn row(name: &'static str, text: Making, call: Call) -> Row {
    Row { name, text, call, ambiguous: AmbiguousWidth::Narrow }
}

/// Returns a row with half of the letters ambiguous, read wide.
const fn wide(name: &'static str, text: Making, call: Call) -> Row {
    Row { name, text, call, ambiguous: AmbiguousWidth::Wide }
}

const fn list(limit: u16, trim: bool) -> Call {
    Call::List { limit, trim }
}

const fn tally(limit: u16, trim: bool) -> Call {
    Call::Tally { limit, trim }
}

const fn draw(screen: [u16; 2], method: Method, page: Page) -> Call {
    Call::Notice { screen, method, page }
}

const fn text(screen: [u16; 2], method: Method, page: Page) -> Call {
    Call::Text { screen, method, page }
}

const SMALL: [u16; 2] = SCREENS[0];
const LARGE: [u16; 2] = SCREENS[1];

pub const ROWS: [Row; 34] = [
    row("list, words, 20", inputs::words, list(20, false)),
    row("list, words, 20, trimmed", inputs::words, list(20, true)),
    row("list, words, 80", inputs::words, list(80, false)),
    row("list, words, 80, trimmed", inputs::words, list(80, true)),
    row("list, words, 4,096", inputs::words, list(4096, false)),
    row("list, words, 4,096, trimmed", inputs::words, list(4096, true)),
    row("list, short lines, 20", inputs::short_lines, list(20, false)),
    row("list, short lines, 20, trimmed", inputs::short_lines, list(20, true)),
    row("list, blanks, 20", inputs::blanks, list(20, false)),
    row("list, blanks, 20, trimmed", inputs::blanks, list(20, true)),
    row("list, letter and blanks, 4,096", inputs::letter_and_blanks, list(4096, false)),
    row("list, letter and blanks, 4,096, trimmed", inputs::letter_and_blanks, list(4096, true)),
    row("list, one word, 20", inputs::one_word, list(20, false)),
    row("list, one word, 20, trimmed", inputs::one_word, list(20, true)),
    wide("list, half ambiguous, 20", inputs::words, list(20, false)),
    row("tally, words, 20", inputs::words, tally(20, false)),
    row("tally, words, 80, trimmed", inputs::words, tally(80, true)),
    row("tally, short lines, 20, trimmed", inputs::short_lines, tally(20, true)),
    row("tally, one word, 20", inputs::one_word, tally(20, false)),
    row(
        "truncation, short lines, first page",
        inputs::short_lines,
        draw(SMALL, Method::Truncated, Page::First),
    ),
    row(
        "truncation, short lines, last page",
        inputs::short_lines,
        draw(SMALL, Method::Truncated, Page::Last),
    ),
    row(
        "truncation, words, scrolled to the right",
        inputs::words,
        draw(SMALL, Method::TruncatedAtEnd, Page::First),
    ),
    row(
        "notice, words, 80 × 24, first page",
        inputs::words,
        draw(SMALL, Method::Wrapped, Page::First),
    ),
    row(
        "notice, words, 80 × 24, last page",
        inputs::words,
        draw(SMALL, Method::Wrapped, Page::Last),
    ),
    row(
        "notice, short lines, 80 × 24, first page",
        inputs::short_lines,
        draw(SMALL, Method::Wrapped, Page::First),
    ),
    row(
        "notice, short lines, 80 × 24, last page",
        inputs::short_lines,
        draw(SMALL, Method::Wrapped, Page::Last),
    ),
    row(
        "notice, words, 200 × 60, first page",
        inputs::words,
        draw(LARGE, Method::Wrapped, Page::First),
    ),
    row(
        "notice, words, 200 × 60, last page",
        inputs::words,
        draw(LARGE, Method::Wrapped, Page::Last),
    ),
    wide(
        "notice, half ambiguous, 80 × 24, last page",
        inputs::words,
        draw(SMALL, Method::Wrapped, Page::Last),
    ),
    row("whole-screen style", inputs::words, Call::Style),
    row(
        "text, words, 80 × 24, first page",
        inputs::words,
        text(SMALL, Method::Wrapped, Page::First),
    ),
    row("text, words, 80 × 24, last page", inputs::words, text(SMALL, Method::Wrapped, Page::Last)),
    row("frame, four titles and shadow", inputs::words, Call::Frame),
    row("one word redrawn, 5 × 1", inputs::clock, Call::Word),
];
