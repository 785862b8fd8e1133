//! Document 01's example of the program `listlines`, to the byte, with C-17's fifth field, one with
//! ambiguous glyphs ("`listlines` reads narrow") and some of several text lines.

use std::fmt::Write;

use oracle::{Alignment, AmbiguousWidth, Outcome, wrapped_lines};

use crate::notation::line;
use crate::report::Report;

pub fn run(report: &mut Report) {
    let examples: [(&[&str], _, _); 6] = [
        (&["___abc"], 5, "0 0 0 0 0\n4 7 3 0 1\nlines 2\n"),
        (&["AbA"], 2, "1 3 2 0 0\n3 4 1 0 1\nlines 2\n"),
        (&["abc__"], 3, "1 4 3 0 0\n0 0 0 0 1\nlines 2\n"),
        (&["ab_c", "", "d"], 2, "1 3 2 0 0\n4 5 1 0 1\n0 0 0 0 1\n7 8 1 0 1\nlines 4\n"),
        (&["abc", ""], 0, "lines 0\n"),
        (&[], 3, "lines 0\n"),
    ];
    for (letters, limit, expected) in examples {
        let mut input = vec![0, limit, 1];
        for record in letters.iter().flat_map(|letters| line(0, letters)) {
            input.extend(record.to_be_bytes());
        }
        let name = format!("listlines of {letters:?} limit {limit}");
        report.same(&name, Outcome::Value(expected.to_owned()), listed(&input));
    }
}

/// Returns what `listlines` prints for an accepted input: "high byte first, limit (2 bytes), trim
/// (byte 0 or 1), then records of 4 bytes".
fn listed(input: &[u8]) -> Outcome<String> {
    let limit = u16::from_be_bytes([input[0], input[1]]);
    let trim = input[2] == 1;
    let records = input[3..].chunks_exact(4);
    let text: Vec<u32> =
        records.map(|bytes| u32::from_be_bytes(bytes.try_into().expect("four bytes"))).collect();
    wrapped_lines(&text, AmbiguousWidth::Narrow, Alignment::Left, limit, trim).map(|lines| {
        let mut output = String::new();
        for line in &lines {
            let (first, end, width) = (line.first(), line.end(), line.width);
            let (alignment, mark) = (line.alignment_number(), line.mark_number());
            writeln!(output, "{first} {end} {width} {alignment} {mark}").expect("a string");
        }
        writeln!(output, "lines {}", lines.len()).expect("a string");
        output
    })
}
