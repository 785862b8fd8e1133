//! Test cases and random texts.

use oracle::{Alignment, AmbiguousWidth};

use super::records;
use crate::random::{below, next};

/// A test case. `trim` is for wrapped lines, `column` (horizontal scroll) for truncated ones.
/// `number` is the case's index in its part.
pub struct Case {
    pub number: u32,
    pub text: Vec<u32>,
    pub ambiguous: AmbiguousWidth,
    pub default_alignment: Alignment,
    pub limit: u16,
    pub trim: bool,
    pub column: u16,
}

/// Distribution of a random text: one record in `heads` is a head, width codes are below `widths`
/// or, as often as each of these, ambiguous, and one glyph in `spaces` is whitespace.
pub struct Manner {
    pub heads: u32,
    pub widths: u32,
    pub spaces: u32,
}

/// Returns the alignment with a number.
pub fn alignment(number: u32) -> Alignment {
    match number {
        0 => Alignment::Left,
        1 => Alignment::Center,
        _ => Alignment::Right,
    }
}

/// Returns a reading of ambiguous widths: even numbers are narrow, odd ones wide.
pub fn ambiguous_of(number: u32) -> AmbiguousWidth {
    if number.is_multiple_of(2) { AmbiguousWidth::Narrow } else { AmbiguousWidth::Wide }
}

/// Returns a text of `length` random records.
pub fn text(length: u32, manner: &Manner, seed: u32) -> Vec<u32> {
    let mut x = seed;
    let mut text = Vec::new();
    for place in 0..length {
        text.push(any_record(place, x, manner));
        x = next(next(next(x)));
    }
    text
}

/// Returns the record at index `place`, made from x and the next two random numbers. Record 0 is a
/// head.
fn any_record(place: u32, x: u32, manner: &Manner) -> u32 {
    let second = next(x);
    let third = next(second);
    if place == 0 || below(x, manner.heads) == 0 {
        return records::head(below(second, 4));
    }
    let space = u32::from(below(third, manner.spaces) == 0);
    records::glyph(width(second, manner.widths), space, third)
}

/// Returns a width code: below `widths`, or ambiguous.
fn width(x: u32, widths: u32) -> u32 {
    let width = below(x, widths + 1);
    if width == widths { records::AMBIGUOUS } else { width }
}
