//! Families of inputs. Each input is generated from its number, independent of the thread.

mod areas;
mod frames;
mod texts;
mod wide;

use crate::arguments::Arguments;
use crate::input::{Call, Input};
use crate::random::Random;
use crate::records::is_ambiguous;
use crate::{scenes, ways};

pub struct Family {
    pub name: &'static str,
    /// The number of inputs, or `None` if unlimited.
    pub inputs: Option<u64>,
    pub make: Box<dyn Fn(u64) -> (Input, &'static [Call]) + Sync>,
}

pub fn all(arguments: &Arguments) -> Vec<Family> {
    let seed = arguments.seed;
    let [text_glyphs, notice_glyphs] = if arguments.short { [4, 3] } else { [6, 5] };
    let short = |name, inputs, make: fn(u64) -> (Input, &'static [Call])| Family {
        name,
        inputs: Some(inputs),
        make: Box::new(make),
    };
    vec![
        short("short texts", texts::count(text_glyphs), texts::text),
        short("short notices", texts::notice_count(notice_glyphs), texts::notice),
        short("text areas", areas::COUNT, areas::text),
        short("inner areas", frames::INNER, frames::inner),
        short("small blocks", frames::BLOCKS, frames::block),
        short("pairs of titles", frames::PAIRS, frames::pair),
        Family {
            name: "right titles",
            inputs: Some(if arguments.short { 100_000 } else { 1_000_000 }),
            make: Box::new(move |number| (scenes::right_titles(&mut random(seed, number)), FRAMED)),
        },
        Family {
            name: "wide glyphs",
            inputs: Some(if arguments.short { 100_000 } else { 1_000_000 }),
            make: Box::new(move |number| wide::notice(&mut random(seed, number))),
        },
        Family {
            name: "pairs of causes",
            inputs: Some(ways::pairs()),
            make: Box::new(move |number| (ways::pair(&mut random(seed, number), number), EACH)),
        },
        Family {
            name: "random inputs",
            inputs: None,
            make: Box::new(move |number| (scenes::scene(&mut random(seed, number)), EACH)),
        },
    ]
}

const EACH: &[Call] = &Call::ALL;

/// The calls that draw a block with its titles, without the paragraph style and with it.
const FRAMED: &[Call] = &[Call::DrawBlock, Call::DrawFrame];

/// Sets how ambiguous widths are read.
fn read(input: &mut Input, digits: &mut Digits) {
    input.settings.ambiguous = 1 + digits.below(2) as u8;
}

/// Returns the calls to make, none if the input only repeats that with the narrow reading: both
/// readings are asked only if a width is ambiguous.
fn asked(input: Input, calls: &'static [Call]) -> (Input, &'static [Call]) {
    let mut records = input.text.iter().chain(&input.titles).copied();
    let repeats = input.settings.ambiguous == 2 && !records.any(is_ambiguous);
    (input, if repeats { &[] } else { calls })
}

/// Returns the random number generator of an input.
fn random(seed: u64, number: u64) -> Random {
    Random::new(seed.rotate_left(40) ^ number)
}

/// Returns cells that all differ, with bits set in every field.
fn cells(count: u32) -> Vec<u64> {
    (0..u64::from(count)).map(|place| (place << 43) + 0x7ff_0f0f_0f0f + place).collect()
}

/// A number split into digits of mixed bases, so that all numbers enumerate all choices.
struct Digits(u64);

impl Digits {
    fn below(&mut self, base: u64) -> u64 {
        let digit = self.0 % base;
        self.0 /= base;
        digit
    }

    fn of<T: Copy>(&mut self, choices: &[T]) -> T {
        choices[self.below(choices.len() as u64) as usize]
    }
}
