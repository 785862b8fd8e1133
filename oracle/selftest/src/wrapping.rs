//! Composed lines and tallies, from document 01's 'Small notices by hand'.

use oracle::AmbiguousWidth::Narrow;
use oracle::{Alignment, ComposedLine, Outcome, Tally, tally, truncated_lines, wrapped_lines};

use crate::notation::{glyph, head, line, shown};
use crate::report::Report;

pub fn run(report: &mut Report) {
    wrapped_examples(report);
    entries(report);
    tallies(report);
    truncated_examples(report);
    ceilings(report);
}

fn wrapped_examples(report: &mut Report) {
    let examples = [
        ("___abc", 5, true, "|abc"),
        ("___abc", 5, false, "___ab|c"),
        ("abW", 3, true, "abW"),
        ("abW", 3, false, "abW"),
        ("aWb", 1, true, "a|b"),
        ("aWb", 1, false, "a|b"),
        ("ZzabcD", 3, true, "Z|abcD"),
        ("___aWWx", 4, true, "a|WWx"),
        ("____", 3, false, "___"),
        ("____", 3, true, ""),
        ("", 3, true, ""),
        ("", 3, false, ""),
    ];
    for (letters, limit, trim, expected) in examples {
        let text = line(0, letters);
        let lines = wrapped_lines(&text, Narrow, Alignment::Left, limit, trim);
        let got = lines.map(|lines| (lines.len(), shown(&text, &lines)));
        let expected = (expected.matches('|').count() + 1, expected.to_owned());
        let trimmed = if trim { "trim" } else { "no trim" };
        let name = format!("wrap {letters:?} limit {limit} {trimmed}");
        report.same(&name, Outcome::Value(expected), got);
    }
    let none = wrapped_lines(&line(0, "abc"), Narrow, Alignment::Left, 0, true);
    report.same("limit 0 gives no line", Outcome::Value(vec![]), none);
}

/// The packed entries: first, end, width, alignment and C-17's mark.
fn entries(report: &mut Report) {
    let packed = |lines: Vec<ComposedLine>| lines.iter().map(ComposedLine::packed).collect();
    let text = line(0, "___abc");
    let got = wrapped_lines(&text, Narrow, Alignment::Left, 5, true).map(packed);
    let expected = vec![0, 4 << 49 | 7 << 34 | 3 << 18 | 1 << 15];
    report.same("entries of \"___abc\"", Outcome::Value(expected), got);

    let got = wrapped_lines(&line(0, "abW"), Narrow, Alignment::Left, 3, true).map(packed);
    let expected = vec![1 << 49 | 4 << 34 | 4 << 18 | 1 << 15];
    report.same("entry of \"abW\" has width 4", Outcome::Value(expected), got);

    let two_lines = [line(3, "a"), line(1, "")].concat();
    let got = wrapped_lines(&two_lines, Narrow, Alignment::Right, 3, true).map(packed);
    let expected = vec![1 << 49 | 2 << 34 | 1 << 18 | 2 << 16 | 1 << 15, 1 << 16 | 1 << 15];
    report.same("alignments are resolved", Outcome::Value(expected), got);
}

fn tallies(report: &mut Report) {
    let clipped = Tally { lines: 2, placed: 3, clipped: 1, ..Tally::default() };
    let zero_width = 1;
    let expected = Tally { zero_width, dropped: 1, ..clipped };
    let got = tally(&line(0, "ZzabcD"), Narrow, 3, true);
    report.same("tally \"ZzabcD\" limit 3 trim", Outcome::Value(expected), got);

    let expected = Tally { dropped: 3, ..clipped };
    let got = tally(&line(0, "___aWWx"), Narrow, 4, true);
    report.same("tally \"___aWWx\" limit 4 trim", Outcome::Value(expected), got);

    let expected = Tally { lines: 2, placed: 2, over_wide: 1, ..Tally::default() };
    let got = tally(&line(0, "aWb"), Narrow, 1, true);
    report.same("tally \"aWb\" limit 1 trim", Outcome::Value(expected), got);

    let got = tally(&line(0, "aWb"), Narrow, 0, true);
    report.same("tally at limit 0", Outcome::Value(Tally::default()), got);
}

fn truncated_examples(report: &mut Report) {
    let examples = [
        ("left, by 1", 0, 1, "Wab", 4),
        ("left, by 2", 0, 2, "abc", 3),
        ("right, by 1", 2, 1, "Wab", 4),
    ];
    for (name, alignment, column, expected, width) in examples {
        let text = line(alignment, "Wabc");
        let lines = truncated_lines(&text, Narrow, Alignment::Left, 4, column);
        let got = lines.map(|lines| (shown(&text, &lines), lines[0].width));
        let name = format!("unwrapped \"Wabc\" limit 4, {name}");
        report.same(&name, Outcome::Value((expected.to_owned(), width)), got);
    }
}

/// The largest text and the largest limit that document 01 accepts.
fn ceilings(report: &mut Report) {
    let letters = std::iter::repeat_n(glyph('a'), 16_383);
    let text: Vec<u32> = std::iter::once(head(0)).chain(letters).collect();
    let count = |lines: Vec<ComposedLine>| lines.len();
    let got = wrapped_lines(&text, Narrow, Alignment::Left, 1, true).map(count);
    report.same("16,384 records at limit 1", Outcome::Value(16_383), got);
    let got = wrapped_lines(&text, Narrow, Alignment::Left, 4_096, true).map(count);
    report.same("16,384 records at limit 4,096", Outcome::Value(4), got);
}
