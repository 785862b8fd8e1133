//! Shadows of the test blocks.

use oracle::{Effect, Shadow};

use super::settings::symbol;
use crate::random::{below, next};

/// Returns the shadow of a kind, made from x and the next five random numbers: 0 is absent, 1 an
/// overlay, 2 and 3 a symbol.
pub fn shadow(kind: u32, x: u32, styles: u32, reach: u32) -> Shadow {
    let b = next(x);
    let c = next(b);
    let e = next(next(c));
    let effect = match kind {
        0 => return Shadow::Absent,
        1 => Effect::Overlay,
        _ => Effect::Symbol(symbol(b)),
    };
    Shadow::Present {
        effect,
        style: below(x, styles) as u8,
        x: offset(c, reach),
        y: offset(e, reach),
    }
}

/// Returns a shadow's offset: at the ends of the 32-bit or 16-bit range, 0, or at most `reach`
/// either way.
fn offset(x: u32, reach: u32) -> i32 {
    match below(x, 16) {
        0 => -2_147_483_648,
        1 => 2_147_483_647,
        2 => -65_535,
        3 => 65_535,
        4 => 0,
        _ => below(next(x), 2 * reach + 1) as i32 - reach as i32,
    }
}
