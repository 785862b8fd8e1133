//! Table rows for `list_lines` and `tally`.

use std::hint::black_box;

use oracle::{Alignment, AmbiguousWidth, ComposedLine, Outcome};
use ratatui_core::glyph::Glyph;

use crate::original::{over_lean, over_oracle};
use crate::sides::Sides;
use crate::{inputs, raw, translated};

/// Number of the left alignment.
const LEFT: u8 = 0;

/// The mark of an entry.
const MARK: u64 = 1 << 15;

/// Returns the symbols of a text for the oracle's stand-ins, concatenated.
fn symbols(text: &[u32]) -> String {
    (0..).zip(text).map(|(number, &record)| Glyph { record, number }.encode()).collect()
}

/// Returns the oracle's answer, which must not be a panic.
pub fn answered<T>(answer: Outcome<T>) -> T {
    match answer {
        Outcome::Value(value) => value,
        Outcome::Panicked(message) => panic!("the crate panicked: {message}"),
    }
}

fn proved_list(
    text: &[u32],
    ambiguous: AmbiguousWidth,
    limit: u16,
    trim: bool,
    list: &mut [u64],
) -> usize {
    let ambiguous = translated::ambiguous_number(ambiguous);
    let answer = raw::list_lines(text, ambiguous, LEFT, limit, trim.into(), list);
    assert_eq!(answer.number, 0, "refused");
    answer.lines
}

fn plain_list(
    text: &[u32],
    ambiguous: AmbiguousWidth,
    limit: u16,
    trim: bool,
    list: &mut [u64],
) -> usize {
    let ambiguous = translated::ambiguous(ambiguous);
    plain::list_lines(text, ambiguous, plain::Alignment::Left, limit, trim, list)
        .expect("no refusal")
}

/// Texts prepared for the crate's `WordWrapper`.
struct Originals<'a> {
    over_oracle: Vec<over_oracle::Text<'a>>,
    over_lean: Vec<over_lean::Text<'a>>,
}

/// Prepares texts for the crate's `WordWrapper` and passes them to `work`.
fn with_originals<T>(
    texts: &[Vec<u32>],
    ambiguous: AmbiguousWidth,
    work: impl FnOnce(Originals) -> T,
) -> T {
    let texts: Vec<Vec<u32>> = texts.iter().map(|text| inputs::resolved(text, ambiguous)).collect();
    let oracle: Vec<String> = texts.iter().map(|text| symbols(text)).collect();
    let lean: Vec<String> = texts.iter().map(|text| lean::symbols(text)).collect();
    work(Originals {
        over_oracle: texts.iter().zip(&oracle).map(|(t, s)| over_oracle::Text::new(t, s)).collect(),
        over_lean: texts.iter().zip(&lean).map(|(t, s)| over_lean::Text::new(t, s)).collect(),
    })
}

/// Compares the entries of every side, including those after the last line. The original knows no mark.
fn compare_lists(
    texts: &[Vec<u32>],
    originals: &Originals,
    ambiguous: AmbiguousWidth,
    limit: u16,
    trim: bool,
) {
    for (number, text) in texts.iter().enumerate() {
        let lines = answered(oracle::wrapped_lines(text, ambiguous, Alignment::Left, limit, trim));
        let mut entries: Vec<u64> = lines.iter().map(ComposedLine::packed).collect();
        let unmarked: Vec<u64> = entries.iter().map(|entry| entry & !MARK).collect();
        assert_eq!(originals.over_oracle[number].entries(limit, trim), unmarked);
        assert_eq!(originals.over_lean[number].entries(limit, trim), unmarked);
        let (mut proved, mut plain) = (vec![0; 2 * text.len()], vec![0; 2 * text.len()]);
        assert_eq!(proved_list(text, ambiguous, limit, trim, &mut proved), entries.len());
        assert_eq!(plain_list(text, ambiguous, limit, trim, &mut plain), entries.len());
        entries.resize(proved.len(), 0);
        assert!(proved == entries && plain == entries);
    }
}

pub fn list<T>(
    texts: &[Vec<u32>],
    ambiguous: AmbiguousWidth,
    limit: u16,
    trim: bool,
    work: impl FnOnce(&mut Sides) -> T,
) -> T {
    with_originals(texts, ambiguous, |originals| {
        compare_lists(texts, &originals, ambiguous, limit, trim);
        let mut list = vec![0; 2 * texts[0].len()];
        let mut plain = list.clone();
        work(&mut Sides::new([
            Box::new(|| {
                for text in texts {
                    black_box(proved_list(black_box(text), ambiguous, limit, trim, &mut list));
                }
            }),
            Box::new(|| {
                for text in texts {
                    black_box(plain_list(black_box(text), ambiguous, limit, trim, &mut plain));
                }
            }),
            Box::new(|| originals.over_oracle.iter().for_each(|text| text.compose(limit, trim))),
            Box::new(|| originals.over_lean.iter().for_each(|text| text.compose(limit, trim))),
        ]))
    })
}

fn proved_tally(text: &[u32], ambiguous: AmbiguousWidth, limit: u16, trim: bool) -> [u32; 6] {
    let raw::TallyAnswer { number, lines, placed, clipped, zero_width, over_wide, dropped } =
        raw::tally(text, translated::ambiguous_number(ambiguous), limit, trim.into());
    assert_eq!(number, 0, "refused");
    [lines, placed, clipped, zero_width, over_wide, dropped]
}

fn plain_tally(text: &[u32], ambiguous: AmbiguousWidth, limit: u16, trim: bool) -> [u32; 6] {
    let plain::TallyCounts { lines, placed, clipped, zero_width, over_wide, dropped } =
        plain::tally(text, translated::ambiguous(ambiguous), limit, trim).expect("no refusal");
    [lines, placed, clipped, zero_width, over_wide, dropped]
}

/// Compares the counts of every side. The last two can't be computed from the crate's lines.
fn compare_tallies(
    texts: &[Vec<u32>],
    originals: &Originals,
    ambiguous: AmbiguousWidth,
    limit: u16,
    trim: bool,
) {
    for (number, text) in texts.iter().enumerate() {
        let oracle::Tally { lines, placed, clipped, zero_width, over_wide, dropped, .. } =
            answered(oracle::tally(text, ambiguous, limit, trim));
        let counts = [lines, placed, clipped, zero_width, over_wide, dropped];
        assert_eq!(proved_tally(text, ambiguous, limit, trim), counts);
        assert_eq!(plain_tally(text, ambiguous, limit, trim), counts);
        assert_eq!(originals.over_oracle[number].counts(limit, trim), counts[..4]);
        assert_eq!(originals.over_lean[number].counts(limit, trim), counts[..4]);
    }
}

pub fn tally<T>(
    texts: &[Vec<u32>],
    ambiguous: AmbiguousWidth,
    limit: u16,
    trim: bool,
    work: impl FnOnce(&mut Sides) -> T,
) -> T {
    with_originals(texts, ambiguous, |originals| {
        compare_tallies(texts, &originals, ambiguous, limit, trim);
        work(&mut Sides::new([
            Box::new(|| {
                for text in texts {
                    black_box(proved_tally(black_box(text), ambiguous, limit, trim));
                }
            }),
            Box::new(|| {
                for text in texts {
                    black_box(plain_tally(black_box(text), ambiguous, limit, trim));
                }
            }),
            Box::new(|| {
                for text in &originals.over_oracle {
                    black_box(text.counts(limit, trim));
                }
            }),
            Box::new(|| {
                for text in &originals.over_lean {
                    black_box(text.counts(limit, trim));
                }
            }),
        ]))
    })
}
