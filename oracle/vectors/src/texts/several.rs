//! Random texts of several short text lines, at limits 0 to 8 and columns 0 to 9.

use super::case::{Case, Manner, alignment, ambiguous_of, text};
use crate::random::{below, next, seed};

/// Returns the case with a number.
pub fn case(number: u32) -> Case {
    let a = seed(number);
    let b = next(a);
    let c = next(b);
    let d = next(c);
    let e = next(d);
    let f = next(e);
    let manner =
        Manner { heads: 2 + below(a, 6), widths: 1 + below(b, 5), spaces: 1 + below(c, 5) };
    Case {
        number,
        text: text(below(d, 25), &manner, f),
        ambiguous: ambiguous_of(number / 6),
        default_alignment: alignment(number % 3),
        limit: below(e, 9) as u16,
        trim: number.is_multiple_of(2),
        column: below(f, 10) as u16,
    }
}
