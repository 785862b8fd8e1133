//! The composed lines of a text, pulled from the crate's `LineComposer`s.

use std::slice;

use ratatui_core::glyph::Glyph;
use ratatui_core::layout::Alignment;
use ratatui_core::style::Style;
use ratatui_core::text::StyledGrapheme;
use ratatui_widgets::reflow::{LineComposer, LineTruncator, WordWrapper};

use crate::outcome::{Outcome, ask};
use crate::records::{HeadedLine, Records};
use crate::settings::AmbiguousWidth;

/// A composed line: the record numbers of its glyphs, the width and alignment from the crate, and
/// C-17's mark.
#[derive(Debug, Clone, PartialEq, Eq)]
pub struct ComposedLine {
    pub glyphs: Vec<u32>,
    pub width: u16,
    pub alignment: Alignment,
    /// Whether it is the last composed line of its text line.
    pub last: bool,
}

impl ComposedLine {
    /// Returns the record number of the first glyph, or 0 if there is none.
    pub fn first(&self) -> u32 {
        self.glyphs.first().copied().unwrap_or(0)
    }

    /// Returns one past the record number of the last glyph, or 0 if there is none.
    pub fn end(&self) -> u32 {
        self.glyphs.last().map_or(0, |last| last + 1)
    }

    /// Returns the number of the alignment: 0 left, 1 centre, 2 right.
    pub fn alignment_number(&self) -> u32 {
        match self.alignment {
            Alignment::Left => 0,
            Alignment::Center => 1,
            Alignment::Right => 2,
        }
    }

    /// Returns the number of the mark: 1 on the last composed line of a text line, 0 on others.
    pub fn mark_number(&self) -> u32 {
        u32::from(self.last)
    }

    /// "Composed line, 64 bits: first 15 | end 15 | width 16 | alignment 2 (resolved) | 16 zeros."
    /// C-17: "The first of the 16 zero bits of a composed line becomes a mark."
    pub fn packed(&self) -> u64 {
        u64::from(self.first()) << 49
            | u64::from(self.end()) << 34
            | u64::from(self.width) << 18
            | u64::from(self.alignment_number()) << 16
            | u64::from(self.mark_number()) << 15
    }
}

/// Returns the wrapped lines of a text: `WordWrapper::next_line` until `None`.
pub fn wrapped_lines(
    text: &[u32],
    ambiguous: AmbiguousWidth,
    default_alignment: Alignment,
    limit: u16,
    trim: bool,
) -> Outcome<Vec<ComposedLine>> {
    wrapped(&Records::new(text, ambiguous), default_alignment, limit, trim)
}

pub fn wrapped(
    text: &Records,
    default_alignment: Alignment,
    limit: u16,
    trim: bool,
) -> Outcome<Vec<ComposedLine>> {
    ask(|| {
        let lines = text.lines(None);
        let wrapper = |part| WordWrapper::new(styled(part, default_alignment), limit, trim);
        (pulled(wrapper(&lines)), counts(&lines, wrapper))
    })
    .map(marked)
}

/// Returns the truncated lines of a text, scrolled right by `column`: `LineTruncator::next_line`
/// until `None`. A line's glyphs don't include swallowed ones.
pub fn truncated_lines(
    text: &[u32],
    ambiguous: AmbiguousWidth,
    default_alignment: Alignment,
    limit: u16,
    column: u16,
) -> Outcome<Vec<ComposedLine>> {
    truncated(&Records::new(text, ambiguous), default_alignment, limit, column)
}

pub fn truncated(
    text: &Records,
    default_alignment: Alignment,
    limit: u16,
    column: u16,
) -> Outcome<Vec<ComposedLine>> {
    ask(|| {
        let lines = text.lines(None);
        let truncator = |part| {
            let mut truncator = LineTruncator::new(styled(part, default_alignment), limit);
            truncator.set_horizontal_offset(column);
            truncator
        };
        (pulled(truncator(&lines)), counts(&lines, truncator))
    })
    .map(marked)
}

/// Returns what paragraph.rs passes to a composer: each line's glyphs and its resolved alignment.
fn styled<'a>(
    lines: &'a [HeadedLine<'a>],
    default_alignment: Alignment,
) -> impl Iterator<Item = (impl Iterator<Item = StyledGrapheme<'a>>, Alignment)> {
    lines.iter().map(move |headed| {
        let line = &headed.line;
        let alignment = line.alignment.unwrap_or(default_alignment);
        (line.styled_graphemes(Style::new()), alignment)
    })
}

/// Returns the lines of a composer, none of them marked.
fn pulled<'a>(mut composer: impl LineComposer<'a>) -> Vec<ComposedLine> {
    let mut lines = Vec::new();
    while let Some(line) = composer.next_line() {
        let shown = line.graphemes.iter().map(|grapheme| grapheme.symbol);
        lines.push(ComposedLine {
            glyphs: shown.filter_map(Glyph::decode).map(|glyph| glyph.number).collect(),
            width: line.width,
            alignment: line.alignment,
            last: false,
        });
    }
    lines
}

/// Returns how many composed lines each text line gives alone.
fn counts<'a, C: LineComposer<'a>>(
    lines: &'a [HeadedLine<'a>],
    composer: impl Fn(&'a [HeadedLine<'a>]) -> C,
) -> Vec<usize> {
    let count = |line| {
        let mut alone = composer(slice::from_ref(line));
        let mut count = 0;
        while alone.next_line().is_some() {
            count += 1;
        }
        count
    };
    lines.iter().map(count).collect()
}

/// Marks the composed lines of a text, given how many belong to each text line. C-17: "The oracle's
/// lists are given the mark by counting lines per input line." Counts that don't fit are an error
/// here and no answer of the Rust, so nothing catches the panic.
fn marked((mut lines, counts): (Vec<ComposedLine>, Vec<usize>)) -> Vec<ComposedLine> {
    let counted: usize = counts.iter().sum();
    assert_eq!(counted, lines.len(), "the text lines alone give as many lines as the whole text");
    let mut rest = lines.as_mut_slice();
    for count in counts {
        let (own, others) = rest.split_at_mut(count);
        if let Some(line) = own.last_mut() {
            line.last = true;
        }
        rest = others;
    }
    lines
}
