//! Test notices and the answers on them: `crates/test_notices` generates the same notices.

mod answers;
mod drawn;
mod kinds;
mod settings;
mod texts;

pub use kinds::print_kinds;

use oracle::{Notice, Rect};

use crate::{Part, Question};

/// A test case.
pub struct Case {
    pub notice: Notice,
    pub area: Rect,
    pub text: Vec<u32>,
    pub titles: Vec<u32>,
    pub columns: u16,
    pub rows: u16,
    pub styles: Vec<u64>,
    pub cells: Vec<u64>,
}

pub const DRAWN: Question<Case> =
    Question { file: "replay_notices/data/notices", ask: answers::notice };

pub const FRAMES: Question<Case> =
    Question { file: "replay_notices/data/frames", ask: answers::frame };

pub const TEXTS: Question<Case> =
    Question { file: "replay_notices/data/texts", ask: answers::text };

pub const SCREENS: [Part<Case>; 3] = [
    Part { name: "narrow screens", count: 30_000, case: drawn::narrow },
    Part { name: "small screens", count: 30_000, case: drawn::small },
    Part { name: "large screens", count: 480, case: drawn::large },
];
