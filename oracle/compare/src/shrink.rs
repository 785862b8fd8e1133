//! Shrinks a differing input as far as it still differs.

use std::time::{Duration, Instant};

use crate::input::Input;
use crate::knobs::{AMBIGUOUS, AREA, BLOCK, NUMBERS, SETTINGS, SYMBOLS};
use crate::records::{BLANK, glyph, is_head, style};

/// Time limit for shrinking an input.
const PATIENCE: Duration = Duration::from_secs(20);

struct Shrinking<'a> {
    best: Input,
    differs: &'a dyn Fn(&Input) -> bool,
    until: Instant,
}

pub fn smallest(input: &Input, differs: &dyn Fn(&Input) -> bool) -> Input {
    let until = Instant::now() + PATIENCE;
    let mut shrinking = Shrinking { best: input.clone(), differs, until };
    while shrinking.round() {}
    shrinking.best
}

impl Shrinking<'_> {
    /// Tries every change once. Returns whether the input became smaller.
    fn round(&mut self) -> bool {
        let mut smaller = self.attempt(blank);
        smaller |= self.screen();
        smaller |= self.drop_from(|input| &mut input.text);
        smaller |= self.drop_from(|input| &mut input.titles);
        smaller |= self.drop_from(|input| &mut input.styles);
        smaller |= self.drop_from(|input| &mut input.list);
        smaller |= self.simplify(|input| &mut input.text);
        smaller |= self.simplify(|input| &mut input.titles);
        smaller |= self.numbers();
        smaller
    }

    /// Keeps a change if it has an effect and the input still differs.
    fn attempt(&mut self, change: impl FnOnce(&mut Input) -> bool) -> bool {
        if Instant::now() > self.until {
            return false;
        }
        let mut changed = self.best.clone();
        let kept = change(&mut changed) && (self.differs)(&changed);
        if kept {
            self.best = changed;
        }
        kept
    }

    /// Reduces columns and rows, with the cells if they match, and the cells alone.
    fn screen(&mut self) -> bool {
        let mut smaller = false;
        for fewer in [|size: u32| size / 2, |size: u32| size.saturating_sub(1)] {
            while self.attempt(|input| resized(input, fewer(input.columns), input.rows)) {
                smaller = true;
            }
            while self.attempt(|input| resized(input, input.columns, fewer(input.rows))) {
                smaller = true;
            }
            while self.attempt(|input| input.cells.pop().is_some()) {
                smaller = true;
            }
        }
        smaller
    }

    /// Drops halves, quarters and so on down to single elements of a list of the input.
    fn drop_from<T>(&mut self, list: fn(&mut Input) -> &mut Vec<T>) -> bool {
        let mut smaller = false;
        let mut part = list(&mut self.best).len();
        while part > 0 {
            let mut from = 0;
            while from < list(&mut self.best).len() {
                let dropped = self.attempt(|input| {
                    let list = list(input);
                    let end = (from + part).min(list.len());
                    list.drain(from..end).next().is_some()
                });
                smaller |= dropped;
                from += if dropped { 0 } else { part };
            }
            part /= 2;
        }
        smaller
    }

    /// Simplifies each record: style 0, letters in order, width 1, no whitespace; a plain head.
    fn simplify(&mut self, records: fn(&mut Input) -> &mut Vec<u32>) -> bool {
        let mut smaller = false;
        for place in 0..records(&mut self.best).len() {
            for simpler in [unstyled, lettered, solid, one_cell, aligned_left] {
                smaller |= self.attempt(|input| {
                    let record = &mut records(input)[place];
                    let before = std::mem::replace(record, simpler(*record, place));
                    before != *record
                });
            }
        }
        smaller
    }

    /// Sets each number to 0, or closer to it.
    fn numbers(&mut self) -> bool {
        let mut smaller = false;
        let knobs = [NUMBERS, AREA, SETTINGS, AMBIGUOUS, BLOCK, SYMBOLS];
        for knob in knobs.into_iter().flatten() {
            for closer in [|_| 0, |number| number / 2, |number: i64| number - number.signum()] {
                while self.attempt(|input| {
                    let number = (knob.get)(input);
                    (knob.set)(input, closer(number));
                    closer(number) != number
                }) {
                    smaller = true;
                }
            }
        }
        smaller
    }
}

/// Blanks all cells and zeroes all entries of the list.
fn blank(input: &mut Input) -> bool {
    let before = (input.cells.clone(), input.list.clone());
    input.cells.fill(BLANK);
    input.list.fill(0);
    before != (input.cells.clone(), input.list.clone())
}

/// Resizes the screen; if the cells were columns × rows, they stay columns × rows.
fn resized(input: &mut Input, columns: u32, rows: u32) -> bool {
    let count = |columns, rows| u64::from(columns) * u64::from(rows);
    let changed = (input.columns, input.rows) != (columns, rows);
    if input.cells.len() as u64 == count(input.columns, input.rows) {
        input.cells.resize(count(columns, rows) as usize, BLANK);
    }
    (input.columns, input.rows) = (columns, rows);
    changed
}

fn unstyled(record: u32, _: usize) -> u32 {
    if is_head(record) { record } else { record - style(record) }
}

fn lettered(record: u32, place: usize) -> u32 {
    let letter = u32::from(b'a') + (place as u32 + 25) % 26;
    if is_head(record) { record } else { glyph(letter, 0, 0, 0) + record % 1024 }
}

fn solid(record: u32, _: usize) -> u32 {
    if is_head(record) { record } else { record & !(1 << 6) }
}

fn one_cell(record: u32, _: usize) -> u32 {
    if is_head(record) { record } else { record & !(7 << 7) | 1 << 7 }
}

/// Returns the head with alignment left, the same position, and its zeros 0.
fn aligned_left(record: u32, _: usize) -> u32 {
    if is_head(record) { 1 << 31 | record & 3 << 27 } else { record }
}
