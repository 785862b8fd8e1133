//! The call `list_lines`.

use crate::line_composer::{LineComposer, Method, WrappedLine};
use crate::refuse::{self, Refusal, unless};
use crate::text::{Alignment, AmbiguousWidth};
use crate::word_wrapper::Rule;

/// "first 15 | end 15 | width 16 | alignment 2 | 16 zeros", the first zero a mark.
fn pack(line: WrappedLine, mark: bool) -> u64 {
    (line.first as u64) << 49
        | (line.end as u64) << 34
        | u64::from(line.width) << 18
        | (line.alignment as u64) << 16
        | u64::from(mark) << 15
}

/// Writes the lines to the list. One is marked, as the last of its text line, if the next one is of another text
/// line, or there is none.
fn write_lines(mut composer: LineComposer, list: &mut [u64]) {
    let mut next = composer.next();
    for entry in list {
        let Some(line) = next else { return };
        let from = composer.from();
        next = composer.next();
        *entry = pack(line, next.is_none() || composer.from() != from);
    }
}

/// Checks causes 3, 4 and 8.
pub fn check_text(limit: u16, text: &[u32]) -> Result<(), Refusal> {
    unless(refuse::text_too_long(text), Refusal::TextLength)?;
    unless(refuse::text_heads_wrong(text), Refusal::TextHeads)?;
    unless(refuse::limit_wrong(limit), Refusal::Limit)
}

/// Lists the composed lines of a text: causes 3, 4, 8, 9. The lines are counted before the first
/// entry is written.
pub fn list_lines(
    text: &[u32],
    ambiguous: AmbiguousWidth,
    default_alignment: Alignment,
    limit: u16,
    trim: bool,
    list: &mut [u64],
) -> Result<usize, Refusal> {
    check_text(limit, text)?;
    let rule = Rule { limit: limit.into(), trim, ambiguous };
    let lines = || LineComposer::new(rule, Method::WordWrap, default_alignment, text);
    let count = lines().count();
    unless(refuse::list_too_short(list.len(), count), Refusal::ListLength)?;
    write_lines(lines(), list);
    Ok(count)
}
