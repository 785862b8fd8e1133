//! Settings of the test blocks.

use oracle::{Alignment, Block, BorderSet, Borders, Padding, Shadow, TitlePosition};

use crate::random::next;

/// Returns a symbol: the upper 21 bits of x.
pub fn symbol(x: u32) -> u32 {
    x >> 11
}

/// Returns the borders with a number from 0 to 15, one bit for each side.
pub fn borders(number: u32) -> Borders {
    let bit = |place: u32| number >> place & 1 == 1;
    Borders { top: bit(0), right: bit(1), bottom: bit(2), left: bit(3) }
}

/// Returns the alignment with a number.
pub fn alignment(number: u32) -> Alignment {
    [Alignment::Left, Alignment::Center, Alignment::Right][number as usize % 3]
}

/// Returns the title position with a number.
pub fn position(number: u32) -> TitlePosition {
    [TitlePosition::Top, TitlePosition::Bottom][number as usize % 2]
}

/// Returns border symbols made from x and the next seven random numbers.
fn border_set(x: u32) -> BorderSet {
    let b = next(x);
    let c = next(b);
    let d = next(c);
    let e = next(d);
    let f = next(e);
    let g = next(f);
    let h = next(g);
    BorderSet {
        top_left: symbol(x),
        top_right: symbol(b),
        bottom_left: symbol(c),
        bottom_right: symbol(d),
        vertical_left: symbol(e),
        vertical_right: symbol(f),
        horizontal_top: symbol(g),
        horizontal_bottom: symbol(h),
    }
}

/// Returns a block with borders and symbols made from x, no shadow, and default settings otherwise.
pub fn framed(borders: Borders, x: u32) -> Block {
    Block {
        borders,
        border_set: border_set(x),
        border_style: 0,
        style: 0,
        padding: Padding::uniform(1),
        titles_style: 0,
        titles_alignment: Alignment::Left,
        titles_position: TitlePosition::Top,
        shadow: Shadow::Absent,
    }
}
