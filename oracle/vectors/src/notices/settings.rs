//! Settings of the test notices.

use oracle::{Block, Notice, Padding, Wrap};

use crate::blocks::settings::alignment;
use crate::blocks::words::four_on;
use crate::random::{below, next};
use crate::texts::case::ambiguous_of;

/// Returns a notice with a block, made from x and the random numbers after it.
pub fn notice(block: Block, x: u32) -> Notice {
    let b = next(x);
    let c = next(b);
    let d = next(c);
    Notice {
        block,
        style: below(x, 64) as u8,
        text_style: below(b, 64) as u8,
        alignment: alignment(below(c, 3)),
        wrap: wrap(d),
        ambiguous: ambiguous_of(below(four_on(four_on(d)), 2)),
        scroll: scrolled(four_on(d), 4),
    }
}

/// Returns unwrapped, wrapped, or wrapped and trimmed, one in three each.
fn wrap(x: u32) -> Wrap {
    match below(x, 3) {
        0 => Wrap::Off { column: scrolled(next(x), 6) },
        1 => Wrap::On { trim: false },
        _ => Wrap::On { trim: true },
    }
}

/// Returns the scroll to the right or down: 0, less than `reach`, or past the end of any text.
fn scrolled(x: u32, reach: u32) -> u16 {
    match below(x, 16) {
        0..8 => 0,
        8..15 => below(next(x), reach) as u16,
        _ => 65_535,
    }
}

/// Returns a padding made from x and the next three random numbers.
pub fn padding(x: u32) -> Padding {
    let b = next(x);
    let c = next(b);
    Padding::new(padded(x), padded(b), padded(c), padded(next(c)))
}

/// Returns the padding of one side: mostly none, and once in 128 more than fits.
fn padded(x: u32) -> u16 {
    match below(x, 128) {
        0..108 => 0,
        108..120 => 1,
        120..127 => 2,
        _ => 65_535,
    }
}
