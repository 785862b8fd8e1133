//! Counts of the cases compared, of their kinds, and of the differences.

use std::io::{self, Write};
use std::process::ExitCode;
use std::sync::Mutex;
use std::sync::atomic::{AtomicBool, AtomicU64, Ordering};
use std::time::Instant;

use crate::expected::Expected;
use crate::input::{Call, Input};
use crate::kinds::Kinds;

/// The columns of the table.
const NAMES: [&str; 12] = [
    "compared",
    "refused",
    "hold a code 7, narrow",
    "hold one, wide",
    "place a glyph",
    "clip one",
    "halve one",
    "panic in the Rust",
    "of these clip none",
    "break a text line",
    "list an empty one",
    "differ",
];
const COMPARED: usize = 0;
const REFUSED: usize = 1;
const DIFFER: usize = 11;

/// The counts of one call.
#[derive(Default)]
struct Row {
    counts: [AtomicU64; NAMES.len()],
    /// Whether a difference was already printed.
    shown: AtomicBool,
}

pub struct Report {
    rows: [Row; Call::ALL.len()],
    /// Entries with C-17's mark in the lists of accepted calls.
    marked: AtomicU64,
    kinds: Kinds,
    printing: Mutex<()>,
    start: Instant,
}

impl Report {
    pub fn new() -> Self {
        Self {
            rows: Default::default(),
            marked: AtomicU64::new(0),
            kinds: Kinds::default(),
            printing: Mutex::new(()),
            start: Instant::now(),
        }
    }

    pub fn count(&self, call: Call, input: &Input, expected: &Expected, differ: bool) {
        let Expected { refused, clipped, halved, panicked, marked, broken, .. } = *expected;
        let places = expected.answers.iter().any(|(_, answer)| answer.named(call, "placed") > 0);
        let holds = !refused && input.holds_ambiguous(call);
        let [narrow, wide] = [1, 2].map(|number| holds && input.settings.ambiguous == number);
        let clips_none = panicked && !clipped;
        let empty = marked > 0 && input.holds_empty_line();
        let kinds: [bool; NAMES.len()] = [
            true, refused, narrow, wide, places, clipped, halved, panicked, clips_none, broken,
            empty, differ,
        ];
        for (count, is_so) in self.rows[call as usize].counts.iter().zip(kinds) {
            count.fetch_add(is_so.into(), Ordering::Relaxed);
        }
        self.marked.fetch_add(marked, Ordering::Relaxed);
        self.kinds.count(call, input, &expected.answers[0].1);
    }

    /// Whether this is the first difference of the call; no later one is.
    pub fn is_first(&self, call: Call) -> bool {
        !self.rows[call as usize].shown.swap(true, Ordering::Relaxed)
    }

    fn sum(&self, column: usize) -> u64 {
        self.rows.iter().map(|row| row.counts[column].load(Ordering::Relaxed)).sum()
    }

    pub fn cases(&self) -> u64 {
        self.sum(COMPARED)
    }

    /// Prints and flushes, without interleaving other threads' output.
    pub fn print(&self, shown: &str) {
        let _printing = self.printing.lock();
        println!("{}", shown.trim_end());
        // The next print reports a closed output.
        let _ = io::stdout().flush();
    }

    pub fn progress(&self, family: &str) {
        let seconds = self.start.elapsed().as_secs_f64();
        let (cases, differ) = (self.cases(), self.sum(DIFFER));
        let rate = cases as f64 / seconds;
        self.print(&format!(
            "{seconds:.0} s: {cases} cases, {differ} differ, {rate:.0} a second; {family}"
        ));
    }

    /// Prints the table and the last line.
    pub fn finish(&self) -> ExitCode {
        println!("\n| call | {} |", NAMES.join(" | "));
        println!("|{}", "---|".repeat(NAMES.len() + 1));
        for call in Call::ALL {
            let counts = &self.rows[call as usize].counts;
            let counts = counts.iter().map(|count| count.load(Ordering::Relaxed).to_string());
            println!("| {} | {} |", call.name(), counts.collect::<Vec<_>>().join(" | "));
        }
        let sums: Vec<_> = (0..NAMES.len()).map(|column| self.sum(column).to_string()).collect();
        println!("| all | {} |\n", sums.join(" | "));
        println!("{}", self.kinds.shown());
        println!(
            "{:.0} seconds, {} accepted, {} marked entries",
            self.start.elapsed().as_secs_f64(),
            self.cases() - self.sum(REFUSED),
            self.marked.load(Ordering::Relaxed)
        );
        println!("{} cases, {} differ", self.cases(), self.sum(DIFFER));
        if self.sum(DIFFER) == 0 { ExitCode::SUCCESS } else { ExitCode::FAILURE }
    }
}
