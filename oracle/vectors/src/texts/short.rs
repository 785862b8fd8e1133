//! Every text line of up to five glyphs of seven kinds, at limits 1 to 5, trimmed and untrimmed; and every one of up to
//! four glyphs of eight kinds, the last ambiguous, the same, read narrow and wide.

use oracle::{Alignment, AmbiguousWidth};

use super::case::{Case, ambiguous_of};
use super::records;

/// Returns the case with a number, without ambiguous glyphs. Each text line has ten cases.
pub fn case(number: u32) -> Case {
    line_case(number, number / 10, 7, ambiguous_of(number / 10))
}

/// Returns the case with a number, with ambiguous glyphs among the kinds. Each text line has twenty cases, ten of
/// them read narrow.
pub fn ambiguous_case(number: u32) -> Case {
    line_case(number, number / 20, 8, ambiguous_of(number / 10))
}

/// Returns the case with a number, on the text line with a number; it is one of its ten of a setting, at columns 0
/// to 9.
fn line_case(number: u32, line_number: u32, kinds: u32, ambiguous: AmbiguousWidth) -> Case {
    Case {
        number,
        text: line(line_number, kinds),
        ambiguous,
        default_alignment: Alignment::Left,
        limit: (1 + number % 10 / 2) as u16,
        trim: number.is_multiple_of(2),
        column: ((number % 10 + line_number) % 10) as u16,
    }
}

/// Returns the text line with a number. Each list of kinds has one number: its digits in base
/// `kinds`, counted from 1, are the kinds.
fn line(number: u32, kinds: u32) -> Vec<u32> {
    let mut rest = number;
    let mut text = vec![records::head(3)];
    while rest > 0 {
        text.push(glyph((rest - 1) % kinds, rest));
        rest = (rest - 1) / kinds;
    }
    text
}

/// Returns the glyph of a kind: 0 to 3 are solid of that width, 4 to 6 whitespace of width 0 to 2,
/// 7 is solid and ambiguous.
fn glyph(kind: u32, x: u32) -> u32 {
    if kind == 7 {
        return records::glyph(records::AMBIGUOUS, 0, x);
    }
    records::glyph(kind % 4, kind / 4, x)
}
