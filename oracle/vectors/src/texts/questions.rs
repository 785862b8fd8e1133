//! The questions on each text.

use oracle::{ComposedLine, Outcome, Wrap};

use super::case::Case;
use crate::Question;
use crate::blocks;
use crate::sums;

pub const QUESTIONS: [Question<Case>; 4] = [
    Question { file: "replay_texts/data/wrapped", ask: wrapped_lines },
    Question { file: "replay_texts/data/tally", ask: counts },
    Question { file: "replay_texts/data/truncated", ask: truncated_lines },
    Question { file: "replay_texts/data/measures", ask: measures },
];

fn wrapped_lines(case: &Case) -> Outcome<u32> {
    let Case { ref text, ambiguous, default_alignment, limit, trim, .. } = *case;
    oracle::wrapped_lines(text, ambiguous, default_alignment, limit, trim)
        .map(|lines| sums::sum_entries(lines.iter().map(ComposedLine::packed)))
}

fn counts(case: &Case) -> Outcome<u32> {
    oracle::tally(&case.text, case.ambiguous, case.limit, case.trim).map(sums::sum_counts)
}

fn truncated_lines(case: &Case) -> Outcome<u32> {
    let Case { ref text, ambiguous, default_alignment, limit, column, .. } = *case;
    oracle::truncated_lines(text, ambiguous, default_alignment, limit, column)
        .map(|lines| sums::sum_lines(&lines))
}

/// Returns the checksum of the text's rows, wrapped and unwrapped, and its columns, in the block of
/// the inner-area case with the same number.
fn measures(case: &Case) -> Outcome<u32> {
    let blocks::Case { block, titles, .. } = blocks::inner::case(case.number);
    let Case { ref text, ambiguous, limit, .. } = *case;
    let (wrapped, unwrapped) = (Wrap::On { trim: case.trim }, Wrap::Off { column: case.column });
    let rows = |wrap| oracle::line_count(text, ambiguous, &titles, block, wrap, limit);
    rows(wrapped).and_then(|wrapped| {
        rows(unwrapped).and_then(|unwrapped| {
            oracle::line_width(text, ambiguous, &titles, block)
                .map(|width| sums::sum_numbers([wrapped, unwrapped, width]))
        })
    })
}
