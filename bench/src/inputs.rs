//! Texts and titles: packed records as document 01 defines them, all glyphs of width 1 or ambiguous.

use oracle::AmbiguousWidth;

/// A head: "1 | alignment 2 | position 2 | 27 zeros"; left, top.
const HEAD: u32 = 1 << 31;
/// Glyphs: "0 | symbol 21 | width 3 | whitespace 1 | style 6".
const LETTER: u32 = 97 << 10 | 1 << 7;
const BLANK: u32 = 32 << 10 | 1 << 7 | 1 << 6;
const AMBIGUOUS_LETTER: u32 = 97 << 10 | 7 << 7;
const WIDE_LETTER: u32 = 97 << 10 | 2 << 7;

/// Number of styles passed to the drawing calls.
pub const STYLES: u32 = 4;

/// Returns one text line of words of 1 to 8 letters, separated by single blanks.
pub fn words(records: usize, number: u32) -> Vec<u32> {
    opened(worded(1 + number).take(records - 1))
}

/// Returns one text line of blanks.
pub fn blanks(records: usize, _: u32) -> Vec<u32> {
    opened(std::iter::repeat_n(BLANK, records - 1))
}

/// Returns one text line of one letter and then blanks, which stay pending.
pub fn letter_and_blanks(records: usize, _: u32) -> Vec<u32> {
    opened(std::iter::once(LETTER).chain(std::iter::repeat_n(BLANK, records - 2)))
}

/// Returns one text line of one word.
pub fn one_word(records: usize, _: u32) -> Vec<u32> {
    opened(std::iter::repeat_n(LETTER, records - 1))
}

/// Glyphs of a clock's word.
pub const CLOCK_GLYPHS: u16 = 5;

/// Returns the word that a clock shows a number of minutes after 13:00.
pub fn clock(_: usize, number: u32) -> Vec<u32> {
    let glyph = |symbol| u32::from(symbol) << 10 | 1 << 7;
    opened(format!("13:{number:02}").chars().map(glyph))
}

/// Returns text lines of 31 glyphs in words.
pub fn short_lines(records: usize, number: u32) -> Vec<u32> {
    (1 + 1_000 * number..).flat_map(|seed| opened(worded(seed).take(31))).take(records).collect()
}

/// Returns the text with its glyphs in all styles, changing every sixteen records.
pub fn styled(text: &[u32]) -> Vec<u32> {
    let style = |number: u32, record: u32| {
        if record == HEAD { record } else { record | (number / 16 % STYLES) }
    };
    (0..).zip(text).map(|(number, &record)| style(number, record)).collect()
}

/// Returns the records with half of their letters ambiguous, those of even numbers.
pub fn half_ambiguous(records: &[u32]) -> Vec<u32> {
    let changed = |number: usize, record: u32| {
        if record == LETTER && number.is_multiple_of(2) { AMBIGUOUS_LETTER } else { record }
    };
    records.iter().enumerate().map(|(number, &record)| changed(number, record)).collect()
}

/// Returns the text as the original takes it: each ambiguous letter has the width read for it.
pub fn resolved(text: &[u32], ambiguous: AmbiguousWidth) -> Vec<u32> {
    let letter = match ambiguous {
        AmbiguousWidth::Narrow => LETTER,
        AmbiguousWidth::Wide => WIDE_LETTER,
    };
    text.iter().map(|&record| if record == AMBIGUOUS_LETTER { letter } else { record }).collect()
}

/// Returns four titles of 12 glyphs: left, centre and right at the top, and right at the bottom.
pub fn titles() -> Vec<u32> {
    let heads = [HEAD, HEAD | 1 << 29, HEAD | 2 << 29, HEAD | 2 << 29 | 1 << 27];
    let title = |head| std::iter::once(head).chain(worded(7).take(12));
    heads.into_iter().flat_map(title).collect()
}

fn opened(glyphs: impl Iterator<Item = u32>) -> Vec<u32> {
    std::iter::once(HEAD).chain(glyphs).collect()
}

fn worded(seed: u32) -> impl Iterator<Item = u32> {
    let next = |state: &u32| Some(state.wrapping_mul(1_664_525).wrapping_add(1_013_904_223));
    std::iter::successors(Some(seed), next).flat_map(|state| {
        let letters = 1 + (state >> 29) as usize;
        std::iter::repeat_n(LETTER, letters).chain(std::iter::once(BLANK))
    })
}
