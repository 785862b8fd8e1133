//! Changes that bring an input to the edge of what is accepted, and past it.

use crate::input::Input;
use crate::knobs;
use crate::random::Random;
use crate::records::{BLANK, SYMBOLS, glyph, head, is_head};
use crate::scenes;

type Way = fn(&mut Input, &mut Random);

/// Two changes at once, each pair, on a small input.
pub fn pairs() -> u64 {
    (WAYS.len() * WAYS.len()) as u64
}

pub fn pair(random: &mut Random, number: u64) -> Input {
    let mut input = scenes::small(random);
    let number = number as usize;
    WAYS[number % WAYS.len()](&mut input, random);
    WAYS[number / WAYS.len()](&mut input, random);
    input
}

/// Applies one to three changes.
pub fn some(input: &mut Input, random: &mut Random) {
    for _ in 0..1 + random.below(3) {
        random.pick(WAYS)(input, random);
    }
}

const WAYS: &[Way] = &[
    |input, random| input.trim = above(random, 2),
    |input, random| input.settings.alignment = above(random, 3),
    |input, random| input.settings.wrap = above(random, 3),
    |input, _| input.settings.ambiguous = 0,
    |input, random| input.settings.ambiguous = above(random, 3),
    |input, random| input.block.titles_alignment = above(random, 3),
    |input, random| input.block.titles_position = above(random, 2),
    |input, random| input.block.shadow = above(random, 3),
    |input, random| input.block.border_top = above(random, 2),
    |input, random| input.block.border_right = above(random, 2),
    |input, random| input.block.border_bottom = above(random, 2),
    |input, random| input.block.border_left = above(random, 2),
    // Screens: 1.
    |input, _| screen(input, 0, 1),
    |input, _| screen(input, 1, 0),
    |input, _| screen(input, 512, 1),
    |input, _| screen(input, 513, 1),
    |input, _| screen(input, 1, 256),
    |input, _| screen(input, 1, 257),
    |input, _| shorten(&mut input.cells),
    |input, _| input.cells.push(BLANK),
    |input, _| (input.columns, input.rows) = (1 << 16, 1 << 16),
    |input, _| (input.columns, input.rows) = (input.rows, input.columns),
    // Styles: 2.
    |input, _| input.styles.resize(64, 1 << 63),
    |input, _| input.styles.resize(65, 1 << 63),
    |input, random| one_of(&mut input.styles, random, |style, bit| style | 1 << (bit % 28)),
    // Texts: 3 and 4.
    |input, random| text(input, random, 16_384),
    |input, random| text(input, random, 16_385),
    |input, random| input.text.insert(0, scenes::glyph(random, 1)),
    |input, random| heads(&mut input.text, random, |head, bit| head | 1 << (bit % 27)),
    |input, random| heads(&mut input.text, random, |head, bit| head | 1 << (27 + bit % 2)),
    // Titles: 5.
    |input, _| titles(input, 16, 1),
    |input, _| titles(input, 17, 1),
    |input, _| titles(input, 2, 256),
    |input, _| titles(input, 2, 257),
    |input, random| input.titles.insert(0, scenes::glyph(random, 1)),
    |input, random| heads(&mut input.titles, random, |head, bit| head | 1 << (bit % 27)),
    |input, random| heads(&mut input.titles, random, |head, _| head | 3 << 27),
    // Style numbers: 6.
    |input, _| input.styles.clear(),
    |input, random| input.block.style = unlent(input, random),
    |input, random| input.block.border_style = unlent(input, random),
    |input, random| input.block.titles_style = unlent(input, random),
    |input, random| input.block.shadow_style = unlent(input, random),
    |input, random| input.settings.style = unlent(input, random),
    |input, random| input.settings.text_style = unlent(input, random),
    |input, random| input.text.push(glyph(97, 1, 0, u32::from(unlent(input, random)).min(63))),
    |input, random| input.titles.push(glyph(97, 1, 0, u32::from(unlent(input, random)).min(63))),
    // Symbols: 7.
    |input, random| border_symbol(input, random, SYMBOLS - 1),
    |input, random| border_symbol(input, random, SYMBOLS),
    |input, random| border_symbol(input, random, u32::MAX),
    |input, _| input.block.shadow_symbol = SYMBOLS,
    |input, _| (input.block.shadow, input.block.shadow_symbol) = (2, SYMBOLS),
    // Limits: 8.
    |input, _| input.limit = 4_096,
    |input, _| input.limit = 4_097,
    |input, _| input.limit = u16::MAX,
    // Lists: 9.
    |input, _| input.list.clear(),
    |input, _| shorten(&mut input.list),
];

/// Returns the first invalid number, or any above it.
fn above(random: &mut Random, first: u8) -> u8 {
    if random.once_in(2) { first } else { first + random.below(256 - u32::from(first)) as u8 }
}

fn screen(input: &mut Input, columns: u32, rows: u32) {
    (input.columns, input.rows) = (columns, rows);
    input.cells.resize((columns * rows) as usize, BLANK);
}

/// Removes the last element.
fn shorten(list: &mut Vec<u64>) {
    list.truncate(list.len().saturating_sub(1));
}

/// Changes one element with a random number.
fn one_of<T: Copy>(list: &mut [T], random: &mut Random, change: fn(T, u32) -> T) {
    if !list.is_empty() {
        let place = random.below(list.len() as u32) as usize;
        list[place] = change(list[place], random.below(1 << 16));
    }
}

/// Changes one head with a random number, adding a head if there is none.
fn heads(records: &mut Vec<u32>, random: &mut Random, change: fn(u32, u32) -> u32) {
    let places: Vec<_> = (0..records.len()).filter(|place| is_head(records[*place])).collect();
    let place = if places.is_empty() { records.len() } else { random.pick(&places) };
    if places.is_empty() {
        records.push(head(0, 0));
    }
    records[place] = change(records[place], random.below(1 << 16));
}

/// Sets a text of `length` records.
fn text(input: &mut Input, random: &mut Random, length: usize) {
    if input.text.is_empty() {
        input.text.push(head(3, 0));
    }
    let more = scenes::glyph(random, 1);
    input.text.resize(length, more);
}

/// Sets `count` titles of `glyphs` glyphs each.
fn titles(input: &mut Input, count: usize, glyphs: usize) {
    let mut title = vec![head(3, 2)];
    title.resize(1 + glyphs, glyph(116, 1, 0, 0));
    input.titles = title.repeat(count);
}

/// Returns a style number that is out of range: the first one or any.
fn unlent(input: &Input, random: &mut Random) -> u8 {
    above(random, input.styles.len().min(255) as u8)
}

fn border_symbol(input: &mut Input, random: &mut Random, symbol: u32) {
    let place = random.below(knobs::SYMBOLS.len() as u32) as usize;
    (knobs::SYMBOLS[place].set)(input, symbol.into());
}
