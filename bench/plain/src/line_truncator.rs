//! The line of an unwrapped text line.

use crate::text::Alignment;
use crate::word_wrapper::{Rule, Run};

/// Returns the glyphs shown when the text is scrolled right by `column`. Only left lines are
/// scrolled.
pub fn truncate_line(rule: Rule, column: u32, alignment: Alignment, records: &[u32]) -> Run {
    let mut offset = if alignment == Alignment::Left { column } else { 0 };
    let mut run = Run::default();
    for (at, &record) in records.iter().enumerate() {
        let width = rule.width(record);
        if run.width + width > rule.limit {
            if width > rule.limit {
                continue;
            }
            return run;
        }
        if offset > 0 && width <= offset {
            offset -= width;
            continue;
        }
        offset = 0;
        run.push(at, width);
    }
    run
}
