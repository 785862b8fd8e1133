//! Why a call is refused: the causes, and the checks behind them.

use crate::cell::style;
use crate::text::{self, glyph, head};

/// The table's causes and their numbers.
#[derive(Debug, Clone, Copy, PartialEq, Eq)]
pub enum Refusal {
    Screen = 1,
    Styles = 2,
    TextLength = 3,
    TextHeads = 4,
    Titles = 5,
    StyleNumber = 6,
    Symbol = 7,
    Limit = 8,
    ListLength = 9,
}

const COLUMNS: u32 = 512;
const ROWS: u32 = 256;
const STYLES: usize = 64;
const RECORDS: usize = 16_384;
const TITLES: usize = 16;
const TITLE_GLYPHS: usize = 256;
const LIMIT: u16 = 4_096;

/// Returns the refusal if something is wrong, else `Ok`.
pub fn unless(wrong: bool, why: Refusal) -> Result<(), Refusal> {
    if wrong { Err(why) } else { Ok(()) }
}

/// Checks cause 1.
pub fn screen_wrong(columns: u32, rows: u32, cells: usize) -> bool {
    !(1..=COLUMNS).contains(&columns)
        || !(1..=ROWS).contains(&rows)
        || cells != columns as usize * rows as usize
}

/// Checks cause 2.
pub fn styles_wrong(styles: &[u64]) -> bool {
    styles.len() > STYLES || styles.iter().any(|&style| style::zeros(style) != 0)
}

/// Checks cause 3.
pub fn text_too_long(text: &[u32]) -> bool {
    text.len() > RECORDS
}

fn opens_without_head(records: &[u32]) -> bool {
    records.first().is_some_and(|&record| !head::is_head(record))
}

/// Checks cause 4. It counts, as a loop without another exit takes several records at a time.
pub fn text_heads_wrong(text: &[u32]) -> bool {
    let wrong =
        |record| head::is_head(record) && (head::zeros(record) != 0 || head::position(record) != 0);
    opens_without_head(text) || text.iter().filter(|&&record| wrong(record)).count() > 0
}

/// Checks cause 5.
pub fn titles_wrong(titles: &[u32]) -> bool {
    let wrong = |head, glyphs: &[u32]| {
        glyphs.len() > TITLE_GLYPHS || head::position(head) == 3 || head::zeros(head) != 0
    };
    opens_without_head(titles)
        || (0..)
            .zip(text::lines(titles))
            .any(|(count, (head, glyphs))| count >= TITLES || wrong(head, glyphs))
}

/// Checks cause 6 for settings.
pub fn style_numbers_wrong(count: usize, numbers: &[u8]) -> bool {
    numbers.iter().any(|&number| usize::from(number) >= count)
}

/// Checks cause 6 for a text or titles, by counting.
pub fn glyph_styles_wrong(count: usize, records: &[u32]) -> bool {
    let wrong = |record| !head::is_head(record) && usize::from(glyph::style(record)) >= count;
    records.iter().filter(|&&record| wrong(record)).count() > 0
}

/// Checks cause 7.
pub fn symbols_wrong(symbols: &[u32]) -> bool {
    symbols.iter().any(|&symbol| symbol >= 1 << 21)
}

/// Checks cause 8.
pub fn limit_wrong(limit: u16) -> bool {
    limit > LIMIT
}

/// Checks cause 9.
pub fn list_too_short(entries: usize, lines: usize) -> bool {
    entries < lines
}
