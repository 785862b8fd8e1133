//! Converts records to the lines that the Rust files take.

use ratatui_core::glyph::{Glyph, SYMBOL_LENGTH};
use ratatui_core::layout::Alignment;
use ratatui_core::style::Style;
use ratatui_core::text::{Line, Span};
use ratatui_widgets::block::TitlePosition;

use crate::settings::AmbiguousWidth;

/// The styles passed to a call. A call without styles draws nothing, so any style will do.
pub type Styles<'a> = Option<&'a [u64]>;

/// Returns the style with a number.
pub fn style(styles: Styles<'_>, number: u8) -> Style {
    styles.map_or_else(Style::new, |lent| Style::from_packed(lent[usize::from(number)]))
}

/// Whether a record is a head, which opens a line.
pub fn is_head(record: u32) -> bool {
    record >> 31 == 1
}

/// The width code of an ambiguous glyph.
const AMBIGUOUS: u16 = 7;

/// Returns the records that the crate is given. Document 02, C-11: "The crate is given each code 7
/// as the 1 or 2 read for it." Heads are left alone.
fn read(records: &[u32], ambiguous: AmbiguousWidth) -> Vec<u32> {
    let width = match ambiguous {
        AmbiguousWidth::Narrow => 1,
        AmbiguousWidth::Wide => 2,
    };
    let read = |&record: &u32| match (Glyph { record, number: 0 }).width() {
        AMBIGUOUS if !is_head(record) => record & !(0b111 << 7) | width << 7,
        _ => record,
    };
    records.iter().map(read).collect()
}

/// A line with the position in its head, for titles.
pub struct HeadedLine<'a> {
    pub position: Option<TitlePosition>,
    pub line: Line<'a>,
}

/// The records of a text or of titles as the crate is given them, with their symbol strings
/// concatenated. Lines borrow from it.
pub struct Records {
    records: Vec<u32>,
    symbols: String,
}

impl Records {
    pub fn new(records: &[u32], ambiguous: AmbiguousWidth) -> Self {
        let records = read(records, ambiguous);
        let mut symbols = String::with_capacity(records.len() * SYMBOL_LENGTH);
        for (number, &record) in (0..).zip(&records) {
            Glyph { record, number }.append_to(&mut symbols);
        }
        Self { records, symbols }
    }

    /// Returns the records where widths don't matter.
    pub fn of_any_width(records: &[u32]) -> Self {
        Self::new(records, AmbiguousWidth::Narrow)
    }

    /// Returns the glyph with a record number.
    pub fn glyph(&self, number: u32) -> Glyph {
        Glyph { record: self.records[number as usize], number }
    }

    pub fn glyphs(&self) -> impl Iterator<Item = Glyph> {
        let all = (0..).zip(&self.records).map(|(number, &record)| Glyph { record, number });
        all.filter(|glyph| !is_head(glyph.record))
    }

    fn symbol(&self, number: usize) -> &str {
        &self.symbols[number * SYMBOL_LENGTH..][..SYMBOL_LENGTH]
    }

    pub fn lines(&self, styles: Styles<'_>) -> Vec<HeadedLine<'_>> {
        let mut lines: Vec<HeadedLine> = Vec::new();
        for (number, &record) in self.records.iter().enumerate() {
            if is_head(record) {
                lines.push(opened(record));
            } else {
                let line = &mut lines.last_mut().expect("records open with a head").line;
                let own = Glyph { record, number: 0 }.style();
                line.spans.push(Span { symbol: self.symbol(number), style: style(styles, own) });
            }
        }
        lines
    }
}

/// Returns the line that a head opens: "alignment 2 (0 left, 1 centre, 2 right, 3 the notice's
/// own) | position 2", which is "0 top, 1 bottom, 2 the block's".
fn opened<'a>(head: u32) -> HeadedLine<'a> {
    let alignment = match head >> 29 & 0b11 {
        0 => Some(Alignment::Left),
        1 => Some(Alignment::Center),
        2 => Some(Alignment::Right),
        _ => None,
    };
    let position = match head >> 27 & 0b11 {
        0 => Some(TitlePosition::Top),
        1 => Some(TitlePosition::Bottom),
        _ => None,
    };
    HeadedLine { position, line: Line { spans: Vec::new(), alignment } }
}
