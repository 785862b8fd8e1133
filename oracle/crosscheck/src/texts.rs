//! Composed lines and tallies.

use std::fmt::Debug;

use oracle::{Alignment, AmbiguousWidth, ComposedLine, Outcome, Wrap};
use rules::compose::{Composed, compose, tally};
use rules::notice::start_column;
use rules::place::{Place, places};
use rules::{glyph, width};

use crate::cases::{self, READINGS, holds_ambiguous};
use crate::random::Random;
use crate::report::Report;

/// Solid glyphs of width 0 to 3, spaces of width 0 to 2, and an ambiguous glyph of each kind, as
/// (width code, whitespace).
const KINDS: [(u32, u32); 9] =
    [(0, 0), (1, 0), (2, 0), (3, 0), (0, 1), (1, 1), (2, 1), (7, 0), (7, 1)];

/// The first bit of a head.
const HEAD: u32 = 1 << 31;

/// The mark of an entry.
const MARK: u64 = 1 << 15;

/// Compares every text line of up to five glyphs of the nine kinds at limits 1 to 5. One without an
/// ambiguous glyph is read narrow only.
pub fn exhaustive(report: &mut Report) {
    for length in 0..=5 {
        for index in 0..KINDS.len().pow(length) {
            let kind = |place| KINDS[index / KINDS.len().pow(place) % KINDS.len()];
            let glyph = |place| {
                let (width, whitespace) = kind(place);
                (97 + place) << 10 | width << 7 | whitespace << 6
            };
            let glyphs = (0..length).map(glyph);
            let text: Vec<u32> = std::iter::once(3 << 29 | 1 << 31).chain(glyphs).collect();
            let readings = if holds_ambiguous(&text) { &READINGS[..] } else { &READINGS[..1] };
            for &ambiguous in readings {
                at_limits(report, &text, ambiguous);
            }
        }
    }
}

/// Compares a text at limits 1 to 5, wrapped and unwrapped.
fn at_limits(report: &mut Report, text: &[u32], ambiguous: AmbiguousWidth) {
    report.note_reading("short texts", text, ambiguous);
    for limit in 1..=5 {
        for trim in [true, false] {
            compare(report, text, ambiguous, Alignment::Left, limit, Wrap::On { trim });
        }
        for column in 0..=5 {
            for default_alignment in [Alignment::Left, Alignment::Right] {
                compare(report, text, ambiguous, default_alignment, limit, Wrap::Off { column });
            }
        }
    }
}

/// Solid glyphs of width 0 to 2, a space, and a centred head.
const RECORDS: [u32; 5] =
    [97 << 10, 98 << 10 | 1 << 7, 99 << 10 | 2 << 7, 32 << 10 | 1 << 7 | 1 << 6, HEAD | 1 << 29];

/// Compares every text of a head and up to six of the five records, at limits 0 to 3, wrapped: of
/// many text lines, and with empty ones at every place.
pub fn of_several_lines(report: &mut Report) {
    for length in 0..=6 {
        for index in 0..RECORDS.len().pow(length) {
            let record = |place| RECORDS[index / RECORDS.len().pow(place) % RECORDS.len()];
            let text: Vec<u32> = std::iter::once(HEAD).chain((0..length).map(record)).collect();
            for limit in 0..=3 {
                for trim in [true, false] {
                    let (ambiguous, wrap) = (AmbiguousWidth::Narrow, Wrap::On { trim });
                    compare(report, &text, ambiguous, Alignment::Left, limit, wrap);
                }
            }
        }
    }
}

/// Compares random texts of up to four text lines of up to sixty glyphs.
pub fn at_random(report: &mut Report, random: &mut Random, count: u32) {
    for _ in 0..count {
        let text = cases::text(random, 64, 60);
        let ambiguous = random.pick(&READINGS);
        report.note_reading("random texts", &text, ambiguous);
        let default_alignment =
            random.pick(&[Alignment::Left, Alignment::Center, Alignment::Right]);
        let limit = random.pick(&[0, 1, 2, 3, 4, 5, 7, 10, 20, 4_096]);
        for wrap in [
            Wrap::On { trim: true },
            Wrap::On { trim: false },
            Wrap::Off { column: random.below16(30) },
        ] {
            compare(report, &text, ambiguous, default_alignment, limit, wrap);
        }
    }
}

/// Compares the composed lines and, if the text is wrapped, its tally. Unwrapped lines never clip.
fn compare(
    report: &mut Report,
    text: &[u32],
    ambiguous: AmbiguousWidth,
    default_alignment: Alignment,
    limit: u16,
    wrap: Wrap,
) {
    let input = (text, ambiguous, default_alignment, limit, wrap);
    let composed = compose(text, ambiguous, default_alignment, i64::from(limit), wrap).lines;
    let document = Outcome::Value(composed.iter().map(listed).collect());
    match wrap {
        Wrap::Off { column } => {
            let rust = oracle::truncated_lines(text, ambiguous, default_alignment, limit, column);
            report.same("truncated lines", &input, &document, &rust);
            match clipped(&composed, limit.into()) {
                0 => report.note("unwrapped texts, each without a clipped glyph"),
                clipped => report.same("glyphs clipped, unwrapped", &input, &0, &clipped),
            }
        }
        Wrap::On { trim } => {
            let rust = oracle::wrapped_lines(text, ambiguous, default_alignment, limit, trim);
            report.same("wrapped lines", &input, &document, &rust);
            let spanned = rust.clone().map(|lines| respanned(text, ambiguous, limit, lines));
            report.same("glyphs from first to end", &input, &spanned, &rust);
            entries(report, &input, text, limit, &composed, rust);
            let document = tally(text, ambiguous, i64::from(limit), trim);
            let rust = oracle::tally(text, ambiguous, limit, trim);
            report.same("tallies", &input, &Outcome::Value(document), &rust);
            if document.halved > 0 {
                report.note("tallies that halve a glyph");
            }
        }
    }
}

/// Compares the entries, and the number of marked ones with that of the text lines. C-17: "At a
/// limit of 1 or more every text line owns exactly one marked entry, empty lines included."
fn entries(
    report: &mut Report,
    input: &dyn Debug,
    text: &[u32],
    limit: u16,
    composed: &[Composed],
    rust: Outcome<Vec<ComposedLine>>,
) {
    let document: Vec<u64> = composed.iter().map(Composed::entry).collect();
    let rust = rust.map(|lines| lines.iter().map(ComposedLine::packed).collect::<Vec<_>>());
    let text_lines = if limit == 0 { 0 } else { text.iter().filter(|one| is_head(one)).count() };
    let marked = |entries: Vec<u64>| entries.iter().filter(|entry| *entry & MARK != 0).count();
    let marks = rust.clone().map(marked);
    report.same("marked entries and text lines", input, &Outcome::Value(text_lines), &marks);
    if document.len() > text_lines {
        report.note("wrapped texts with a text line of two or more composed lines");
    }
    if text_lines > 0 && holds_empty_line(text) {
        report.note("wrapped texts with an empty text line");
    }
    report.same("entries", input, &Outcome::Value(document), &rust);
}

fn is_head(record: &u32) -> bool {
    *record >= HEAD
}

/// Whether a text line has no glyph: its head is the last record, or another head is next.
fn holds_empty_line(text: &[u32]) -> bool {
    text.last().is_some_and(is_head) || text.windows(2).any(|pair| pair.iter().all(is_head))
}

/// Counts the glyphs clipped when the lines are drawn.
fn clipped(lines: &[Composed], columns: i64) -> usize {
    let clips = |line: &Composed| {
        places(&line.glyphs, start_column(line, columns), columns)
            .filter(|(_, _, place)| matches!(place, Place::Halved | Place::Outside))
            .count()
    };
    lines.iter().map(clips).sum()
}

fn listed(line: &Composed) -> ComposedLine {
    ComposedLine {
        glyphs: line.glyphs.iter().map(|glyph| glyph.number).collect(),
        width: width(&line.glyphs) as u16,
        alignment: line.alignment,
        last: line.mark == 1,
    }
}

/// "Its glyphs are those from first to end that are no wider than the limit." An entry doesn't have
/// the setting, so its glyphs are read by the same one.
fn respanned(
    text: &[u32],
    ambiguous: AmbiguousWidth,
    limit: u16,
    mut lines: Vec<ComposedLine>,
) -> Vec<ComposedLine> {
    let cells = |number: u32| glyph(number, text[number as usize], ambiguous).width;
    for line in &mut lines {
        let span = line.first()..line.end();
        line.glyphs = span.filter(|number| cells(*number) <= i64::from(limit)).collect();
    }
    lines
}
