//! Checks one call on one input against the expected answer.

use crate::expected::expected;
use crate::input::{Call, Input};
use crate::report::Report;
use crate::{ours, show, shrink};

/// Compares and counts. The first difference of each call is shrunk and printed.
pub fn check(call: Call, input: &Input, origin: &dyn Fn() -> String, report: &Report) {
    let expected = expected(call, input);
    let answer = ours::answer(call, input);
    let differ = expected.answers.iter().any(|(_, expected)| *expected != answer);
    report.count(call, input, &expected, differ);
    if differ && report.is_first(call) {
        let smallest = shrink::smallest(input, &|smaller| differs(call, smaller));
        report.print(&format!("from {}: {}", origin(), show::difference(call, &smallest)));
    }
}

fn differs(call: Call, input: &Input) -> bool {
    let answer = ours::answer(call, input);
    expected(call, input).answers.iter().any(|(_, expected)| *expected != answer)
}
