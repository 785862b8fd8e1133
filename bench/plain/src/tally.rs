//! The call `tally`: counts of a text's lines and glyphs.

use crate::line_composer::{LineComposer, Method};
use crate::list_lines::check_text;
use crate::place::Place;
use crate::refuse::Refusal;
use crate::text::{Alignment, AmbiguousWidth, glyph, head};
use crate::word_wrapper::Rule;

#[derive(Debug, Default, Clone, Copy, PartialEq, Eq)]
pub struct TallyCounts {
    pub lines: u32,
    pub placed: u32,
    pub clipped: u32,
    pub zero_width: u32,
    pub over_wide: u32,
    pub dropped: u32,
}

impl TallyCounts {
    /// Counts the glyphs of a composed line.
    fn add_line(&mut self, rule: Rule, records: &[u32]) {
        self.lines += 1;
        let mut column = 0;
        for &record in records {
            let width = rule.width(record);
            if width > rule.limit {
                continue;
            }
            match Place::of_glyph(rule.limit as usize, column, width as usize) {
                Place::ZeroWidth => self.zero_width += 1,
                Place::Placed => self.placed += 1,
                Place::Halved | Place::Outside => self.clipped += 1,
            }
            column += width as usize;
        }
    }
}

/// Tallies a text at a limit: causes 3, 4, 8. Counts the composed lines first, then all glyphs; the
/// difference is the number of glyphs dropped.
pub fn tally(
    text: &[u32],
    ambiguous: AmbiguousWidth,
    limit: u16,
    trim: bool,
) -> Result<TallyCounts, Refusal> {
    check_text(limit, text)?;
    if limit == 0 {
        return Ok(TallyCounts::default());
    }
    let rule = Rule { limit: limit.into(), trim, ambiguous };
    let mut counts = TallyCounts::default();
    for line in LineComposer::new(rule, Method::WordWrap, Alignment::Left, text) {
        counts.add_line(rule, &text[line.first..line.end]);
    }
    let glyphs = || text.iter().filter(|&&record| !head::is_head(record));
    if rule.limit < glyph::WIDEST {
        let over_wide = |record| rule.width(record) > rule.limit;
        counts.over_wide = glyphs().filter(|&&record| over_wide(record)).count() as u32;
    }
    let emitted = counts.placed + counts.clipped + counts.zero_width;
    counts.dropped = glyphs().count() as u32 - counts.over_wide - emitted;
    Ok(counts)
}
