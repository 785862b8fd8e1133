//! Document 01's tally of a text, with C-14's clipping, computed from the crate's composed lines.

use std::collections::BTreeSet;

use crate::compose::{ComposedLine, wrapped};
use crate::outcome::Outcome;
use crate::records::Records;
use crate::settings::{Alignment, AmbiguousWidth};

/// The tally's counts, under document 01's names, and `halved`, which no call answers.
#[derive(Debug, Default, Clone, Copy, PartialEq, Eq)]
pub struct Tally {
    pub lines: u32,
    pub placed: u32,
    pub clipped: u32,
    /// How many of the clipped start below the limit.
    pub halved: u32,
    pub zero_width: u32,
    pub over_wide: u32,
    pub dropped: u32,
}

/// Returns the tally of a text at a limit. The crate drops glyphs silently: dropped are those that
/// are neither emitted nor wider than the limit.
pub fn tally(text: &[u32], ambiguous: AmbiguousWidth, limit: u16, trim: bool) -> Outcome<Tally> {
    if limit == 0 {
        return Outcome::Value(Tally::default());
    }
    let text = Records::new(text, ambiguous);
    wrapped(&text, Alignment::Left, limit, trim).map(|lines| {
        let mut tally = Tally::default();
        for line in &lines {
            let counts = glyph_counts(&text, line, 0, limit);
            tally.lines += 1;
            tally.placed += counts.placed;
            tally.clipped += counts.clipped;
            tally.halved += counts.halved;
            tally.zero_width += counts.zero_width;
        }
        let emitted: BTreeSet<u32> = lines.into_iter().flat_map(|line| line.glyphs).collect();
        for glyph in text.glyphs() {
            if glyph.width() > limit {
                tally.over_wide += 1;
            } else if !emitted.contains(&glyph.number) {
                tally.dropped += 1;
            }
        }
        tally
    })
}

/// Counts of a composed line's glyphs.
#[derive(Default)]
pub struct GlyphCounts {
    pub placed: u32,
    pub clipped: u32,
    pub halved: u32,
    pub zero_width: u32,
}

/// Counts the glyphs of a line that starts at column `offset`. Zero-width are those "emitted,
/// wherever they start", and of the others those are clipped that "start at or past the limit".
/// C-14 adds "a glyph that starts inside and runs past the right edge": such a one is halved, and
/// the glyphs that end by the edge are placed.
pub fn glyph_counts(text: &Records, line: &ComposedLine, offset: u16, columns: u16) -> GlyphCounts {
    let mut counts = GlyphCounts::default();
    let mut start = offset;
    for &number in &line.glyphs {
        let end = start + text.glyph(number).width();
        if end == start {
            counts.zero_width += 1;
        } else if end <= columns {
            counts.placed += 1;
        } else {
            counts.clipped += 1;
            counts.halved += u32::from(start < columns);
        }
        start = end;
    }
    counts
}
