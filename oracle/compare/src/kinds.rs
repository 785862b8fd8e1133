//! Kinds of cases of C-15's calls, counted below the table.

use std::sync::atomic::{AtomicU64, Ordering};

use crate::answer::Answer;
use crate::input::{Call, Input};

/// How the area of an accepted text lies to the screen, then which call of a pair is refused.
const NAMES: [&str; 7] = [
    "draw_text on the screen",
    "draw_text over its edge",
    "draw_text off it",
    "draw_text in no cell",
    "pairs with the frame refused",
    "pairs with the text refused",
    "pairs with both refused",
];

#[derive(Default)]
pub struct Kinds([AtomicU64; NAMES.len()]);

impl Kinds {
    /// Counts a case, given its expected answer.
    pub fn count(&self, call: Call, input: &Input, expected: &Answer) {
        let kind = match call {
            Call::DrawText if expected.number == 0 => Some(lying(input)),
            Call::Pair => refused(expected),
            _ => None,
        };
        if let Some(kind) = kind {
            self.0[kind].fetch_add(1, Ordering::Relaxed);
        }
    }

    pub fn shown(&self) -> String {
        let counts = self.0.iter().map(|count| count.load(Ordering::Relaxed));
        let named = NAMES.iter().zip(counts).map(|(name, count)| format!("{name}: {count}"));
        named.collect::<Vec<_>>().join("\n")
    }
}

/// Returns the kind of a text's area.
fn lying(input: &Input) -> usize {
    let area = input.area;
    let [right, bottom] = [(area.x, area.width), (area.y, area.height)]
        .map(|(start, size)| u32::from(start) + u32::from(size));
    if area.width == 0 || area.height == 0 {
        3
    } else if u32::from(area.x) >= input.columns || u32::from(area.y) >= input.rows {
        2
    } else {
        usize::from(right > input.columns || bottom > input.rows)
    }
}

/// Returns the kind of a pair, if a call of it is refused.
fn refused(expected: &Answer) -> Option<usize> {
    match [u64::from(expected.number), expected.named(Call::Pair, "text's number")] {
        [0, 0] => None,
        [_, 0] => Some(4),
        [0, _] => Some(5),
        _ => Some(6),
    }
}
