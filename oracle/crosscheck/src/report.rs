//! Counts of what was compared, what was skipped, and what differs.

use std::collections::BTreeMap;
use std::fmt::Debug;
use std::process::ExitCode;

use oracle::AmbiguousWidth;

use crate::cases::holds_ambiguous;

#[derive(Default)]
struct Topic {
    compared: u64,
    differences: u64,
    smallest: Option<String>,
}

#[derive(Default)]
pub struct Report {
    topics: BTreeMap<&'static str, Topic>,
    notes: BTreeMap<String, u64>,
}

impl Report {
    /// Compares the answer of `rules` with the Rust's. Of each topic the differing input is kept
    /// that is shortest when formatted.
    pub fn same<T: Debug + PartialEq>(
        &mut self,
        topic: &'static str,
        input: &dyn Debug,
        document: &T,
        rust: &T,
    ) {
        self.alike(topic, input, [("`rules`", document), ("the Rust", rust)]);
    }

    /// Compares two answers, each with the name of what gave it.
    pub fn alike<T: Debug + PartialEq>(
        &mut self,
        topic: &'static str,
        input: &dyn Debug,
        [(one, first), (other, second)]: [(&str, &T); 2],
    ) {
        let topic = self.topics.entry(topic).or_default();
        topic.compared += 1;
        if first == second {
            return;
        }
        topic.differences += 1;
        let shown = format!("{input:?}\n    {one}: {first:?}\n    {other}: {second:?}");
        if topic.smallest.as_ref().is_none_or(|smallest| shown.len() < smallest.len()) {
            topic.smallest = Some(shown);
        }
    }

    /// Counts an input of a kind that is reported.
    pub fn note(&mut self, kind: &str) {
        *self.notes.entry(kind.to_owned()).or_default() += 1;
    }

    /// Counts an input whose records hold a glyph of width code 7.
    pub fn note_reading(&mut self, what: &str, records: &[u32], ambiguous: AmbiguousWidth) {
        let reading = match ambiguous {
            AmbiguousWidth::Narrow => "narrow",
            AmbiguousWidth::Wide => "wide",
        };
        if holds_ambiguous(records) {
            self.note(&format!("{what} with a code 7 read {reading}"));
        }
    }

    pub fn finish(&self) -> ExitCode {
        for (name, topic) in &self.topics {
            println!("{name}: {} compared, {} differ", topic.compared, topic.differences);
            if let Some(smallest) = &topic.smallest {
                println!("  smallest: {smallest}");
            }
        }
        for (kind, count) in &self.notes {
            println!("{kind}: {count}");
        }
        let compared: u64 = self.topics.values().map(|topic| topic.compared).sum();
        let differences: u64 = self.topics.values().map(|topic| topic.differences).sum();
        println!("{compared} compared, {differences} differences");
        if differences == 0 { ExitCode::SUCCESS } else { ExitCode::FAILURE }
    }
}
