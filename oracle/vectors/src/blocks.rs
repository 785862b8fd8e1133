//! Test blocks and the answers on them: `crates/test_blocks` generates the same blocks.

pub mod areas;
pub mod drawn;
pub mod inner;
pub mod many_titles;
pub mod settings;
mod shadows;
mod titled;
mod titles;
pub mod words;

use oracle::{AmbiguousWidth, Block, Outcome, Rect};

use crate::sums::{sum_entries, sum_numbers};
use crate::{Part, Question};

/// A test case. One for the inner area has no screen, and reads no width.
pub struct Case {
    pub block: Block,
    pub area: Rect,
    pub titles: Vec<u32>,
    pub ambiguous: AmbiguousWidth,
    pub columns: u16,
    pub rows: u16,
    pub styles: Vec<u64>,
    pub cells: Vec<u64>,
}

pub const INNER: Question<Case> = Question { file: "replay_blocks/data/inner", ask: inner_area };

pub const AREAS: [Part<Case>; 1] = [Part { name: "areas", count: 49_000, case: inner::case }];

pub const DRAWN: Question<Case> = Question { file: "replay_blocks/data/blocks", ask: drawn_cells };

pub const SCREENS: [Part<Case>; 2] = [
    Part { name: "small screens", count: 40_000, case: drawn::small },
    Part { name: "large screens", count: 48, case: drawn::large },
];

pub const TITLED: Question<Case> = Question { file: "replay_blocks/data/titled", ask: drawn_cells };

pub const TITLED_SCREENS: [Part<Case>; 3] = [
    Part { name: "small screens", count: 48_000, case: titled::small },
    Part { name: "wide screens", count: 1_536, case: titled::wide },
    Part { name: "right titles alone", count: 4_096, case: titled::right },
];

/// Returns the checksum of the inner area and the space that the block takes on the left, right,
/// top and bottom.
fn inner_area(case: &Case) -> Outcome<u32> {
    let Case { block, area, ref titles, .. } = *case;
    oracle::inner(block, titles, area).and_then(|Rect { x, y, width, height }| {
        oracle::horizontal_space(block, titles).and_then(|(left, right)| {
            oracle::vertical_space(block, titles).map(|(top, bottom)| {
                sum_numbers([x, y, width, height, left, right, top, bottom].map(u32::from))
            })
        })
    })
}

/// Draws the block and returns the checksum of all cells.
fn drawn_cells(case: &Case) -> Outcome<u32> {
    let (columns, rows) = (u32::from(case.columns), u32::from(case.rows));
    let Case { block, area, ref titles, ambiguous, ref styles, .. } = *case;
    let mut cells = case.cells.clone();
    oracle::draw_block(columns, rows, &mut cells, styles, titles, ambiguous, area, block)
        .map(|()| sum_entries(cells.into_iter()))
}
