//! Titles of the blocks to draw: any number, of any alignment and position, or all at the right.

use super::titles::{head, right_head};
use super::words::four_on;
use crate::random::{below, next, seed};
use crate::texts::records::AMBIGUOUS;

/// Returns `count` titles of up to `most` glyphs, whose style numbers are below `styles`, made from
/// x and the random numbers after it, all of them right titles if `right` is set. About half of the
/// titles share a head, so that several are side by side.
pub fn many_titles(count: u32, most: u32, right: bool, styles: u32, x: u32) -> Vec<u32> {
    let common = any_head(x, right);
    let mut x = next(next(x));
    let mut titles = Vec::new();
    for _ in 0..count {
        titles.push(if below(x, 2) == 0 { common } else { any_head(next(x), right) });
        let y = four_on(x);
        titles.extend(glyphs(length(y, most), styles, seed(x)));
        x = next(next(y));
    }
    titles
}

/// Returns a head of random position, and of random alignment unless it is to be a right title's.
fn any_head(x: u32, right: bool) -> u32 {
    let position = below(next(x), 3);
    if right { right_head(position, x) } else { head(position, x) }
}

/// Returns the number of glyphs in a title: `most`, none, or a number between.
fn length(x: u32, most: u32) -> u32 {
    match below(x, 8) {
        0..2 => most,
        2 => 0,
        _ => below(next(x), most + 1),
    }
}

/// Returns `count` glyphs, each made from four random numbers.
fn glyphs(count: u32, styles: u32, seed: u32) -> Vec<u32> {
    let mut x = seed;
    let mut glyphs = Vec::new();
    for _ in 0..count {
        glyphs.push(glyph(x, styles));
        x = four_on(x);
    }
    glyphs
}

/// Returns a glyph made from x and the next three random numbers, with a 21-bit symbol.
fn glyph(x: u32, styles: u32) -> u32 {
    let y = next(x);
    let z = next(next(y));
    x >> 11 << 10 | width(y) << 7 | below(z, 2) << 6 | below(z, styles)
}

/// Returns a width code: mostly 0 to 3 or ambiguous, any code once in sixteen.
fn width(x: u32) -> u32 {
    match below(x, 16) {
        0..2 => 0,
        2..8 => 1,
        8..10 => AMBIGUOUS,
        10..13 => 2,
        13..15 => 3,
        _ => below(next(x), 8),
    }
}
