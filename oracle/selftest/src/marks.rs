//! C-17: "The first of the 16 zero bits of a composed line becomes a mark: 1 on the last composed
//! line of each text line, 0 on others. At a limit of 1 or more every text line owns exactly one
//! marked entry, empty lines included." Each example is asked of the Rust, whose lines are counted
//! for the mark, and of the crate `rules`.

use oracle::AmbiguousWidth::Narrow;
use oracle::{Alignment, ComposedLine, Outcome, Wrap, truncated_lines, wrapped_lines};
use rules::compose::{Composed, compose};

use crate::notation::{glyph, head, line, shown};
use crate::report::Report;

pub fn run(report: &mut Report) {
    marks(report);
    entries(report);
    unwrapped(report);
    ceilings(report);
}

/// Text lines, a limit and trim, with the composed lines and the mark of each.
type Marked = (&'static [&'static str], u16, bool, &'static str, &'static [u64]);

const LISTS: [Marked; 20] = [
    (&["abc__"], 3, true, "abc|", &[0, 1]),
    (&["abc__"], 3, false, "abc|_", &[0, 1]),
    (&["abc"], 3, true, "abc", &[1]),
    (&["___abc"], 5, true, "|abc", &[0, 1]),
    (&["___abc"], 5, false, "___ab|c", &[0, 1]),
    (&["abcdefg"], 3, true, "abc|def|g", &[0, 0, 1]),
    (&["aWb"], 1, true, "a|b", &[0, 1]),
    // Empty text lines, and those of which an empty line is left.
    (&[""], 3, true, "", &[1]),
    (&[""], 1, false, "", &[1]),
    (&["", ""], 3, true, "|", &[1, 1]),
    (&["____"], 3, true, "", &[1]),
    (&["W"], 1, true, "", &[1]),
    (&["Z"], 1, true, "Z", &[1]),
    // Several text lines.
    (&["ab_cd", "e"], 2, true, "ab|cd|e", &[0, 1, 1]),
    (&["a", "bc_de", ""], 2, true, "a|bc|de|", &[1, 0, 1, 1]),
    (&["", "abc__", "", "d"], 3, true, "|abc|||d", &[1, 0, 1, 1, 1]),
    (&["abc__", "abc"], 3, false, "abc|_|abc", &[0, 1, 1]),
    // No line, no mark.
    (&["abc", ""], 0, true, "", &[]),
    (&["abc", ""], 0, false, "", &[]),
    (&[], 3, true, "", &[]),
];

fn text_of(lines: &[&str]) -> Vec<u32> {
    lines.iter().flat_map(|letters| line(0, letters)).collect()
}

/// Returns the entries that the Rust's lines make.
fn by_rust(text: &[u32], limit: u16, trim: bool) -> Outcome<Vec<u64>> {
    let packed = |lines: Vec<ComposedLine>| lines.iter().map(ComposedLine::packed).collect();
    wrapped_lines(text, Narrow, Alignment::Left, limit, trim).map(packed)
}

/// Returns the entries by the crate `rules`.
fn by_rules(text: &[u32], limit: u16, trim: bool) -> Vec<u64> {
    let wrap = Wrap::On { trim };
    let lines = compose(text, Narrow, Alignment::Left, limit.into(), wrap).lines;
    lines.iter().map(Composed::entry).collect()
}

/// The mark: the first of 16 bits.
const MARK: u64 = 32_768;

/// Returns the last 16 bits of each entry: the mark, or 0.
fn low_bits(entries: Vec<u64>) -> Vec<u64> {
    entries.iter().map(|entry| entry % 65_536).collect()
}

fn marks(report: &mut Report) {
    for (lines, limit, trim, expected, marks) in LISTS {
        let text = text_of(lines);
        let name = format!("marks of {lines:?} limit {limit} trim {trim}");
        let got = wrapped_lines(&text, Narrow, Alignment::Left, limit, trim)
            .map(|lines| (shown(&text, &lines), lines.len()));
        report.same(&name, Outcome::Value((expected.to_owned(), marks.len())), got);
        let expected: Vec<u64> = marks.iter().map(|mark| mark * MARK).collect();
        let got = by_rust(&text, limit, trim).map(low_bits);
        report.same(&format!("{name}: the Rust, counted"), Outcome::Value(expected.clone()), got);
        let got = low_bits(by_rules(&text, limit, trim));
        report.same(&format!("{name}: by the rules"), expected, got);
    }
}

/// Whole entries.
fn entries(report: &mut Report) {
    let entry = |first: u64, end: u64, width: u64| first << 49 | end << 34 | width << 18;
    let examples: [(&[&str], _, _); 3] = [
        (&["abc__"], 3, vec![entry(1, 4, 3), MARK]),
        (&[""], 3, vec![MARK]),
        (&["ab", "c"], 2, vec![entry(1, 3, 2) + MARK, entry(4, 5, 1) + MARK]),
    ];
    for (lines, limit, expected) in examples {
        let text = text_of(lines);
        let name = format!("entries of {lines:?} limit {limit}");
        let got = by_rust(&text, limit, true);
        report.same(&format!("{name}: the Rust, counted"), Outcome::Value(expected.clone()), got);
        let got = by_rules(&text, limit, true);
        report.same(&format!("{name}: by the rules"), expected, got);
    }
}

/// An unwrapped text line gives one composed line, which is its last.
fn unwrapped(report: &mut Report) {
    let text = text_of(&["abcd", "", "e"]);
    let marks = |lines: Vec<ComposedLine>| lines.iter().map(|line| line.last).collect();
    let got = truncated_lines(&text, Narrow, Alignment::Left, 2, 0).map(marks);
    report.same("marks of unwrapped lines", Outcome::Value(vec![true; 3]), got);
}

/// The longest texts that document 01 accepts: of empty text lines, of one long one, of short ones.
fn ceilings(report: &mut Report) {
    let heads = vec![head(0); 16_384];
    let long: Vec<u32> = std::iter::once(head(0)).chain(vec![glyph('a'); 16_383]).collect();
    let short = line(0, "abc").repeat(4_096);
    let examples = [
        ("all heads", heads, (16_384, 16_384)),
        ("one line", long, (8_192, 1)),
        ("lines of three", short, (8_192, 4_096)),
    ];
    for (name, text, expected) in examples {
        let count = |entries: Vec<u64>| {
            let lines = entries.len();
            (lines, low_bits(entries).into_iter().filter(|low| *low == MARK).count())
        };
        let got = by_rust(&text, 2, true).map(count);
        let name = format!("lines and marks of 16,384 records, {name}, limit 2");
        report.same(&name, Outcome::Value(expected), got);
    }
}
