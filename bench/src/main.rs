//! Times the proved archive, a plain Rust translation and the original Rust on the same inputs.
//!
//! Usage: `bench` for the tables; `bench ROW` for the times of one row (from 0, in the order of the
//! table), a list of the sides for each size; `bench ROW SIDE TIMES` to run one side of a row TIMES
//! times at the largest size, for a tool that counts instructions. For bench/compare: `bench rows`
//! for the names of the rows, and `bench ROW once` for each size and two times of the proved side,
//! in turns with the others and alone.
#![deny(unsafe_code)]

mod composing;
mod drawing;
mod inputs;
mod original;
mod report;
mod rows;
mod scene;
mod sides;
mod translated;

#[path = "../../oracle/compare/src/settings.rs"]
mod flat;
#[allow(unsafe_code)]
#[path = "../../examples/rust/src/raw.rs"]
mod raw;
#[allow(dead_code, reason = "what the oracle's tally needs of it isn't needed here")]
#[path = "../../oracle/oracle/src/records.rs"]
mod records;
/// Under the name that the oracle's modules included here use.
mod settings {
    pub use oracle::{
        AmbiguousWidth, Block, BorderSet, Borders, Effect, Shadow, TextSettings, TitlePosition,
        Wrap,
    };
}
#[path = "../../oracle/oracle/src/widgets.rs"]
mod widgets;

use std::env;

use report::Found;
use rows::{ROWS, Row};

/// Number of rounds in which each row is timed, so that a busy minute spoils none.
const ROUNDS: usize = 6;

/// Returns the minimum over all rounds, for each row and size.
fn all_rounds(rows: &[Row]) -> Vec<Found> {
    let round = |_| -> Vec<Found> {
        let sizes = |row: &Row| {
            [0, 1, 2].map(|size| row.with_sides(size, |sides| sides.least(row.units(size))))
        };
        rows.iter().map(sizes).collect()
    };
    let least = |mut all: Vec<Found>, one: Vec<Found>| {
        let times = |found: Vec<Found>| found.into_iter().flatten().flatten();
        for (kept, new) in all.iter_mut().flatten().flatten().zip(times(one)) {
            *kept = kept.min(new);
        }
        all
    };
    (0..ROUNDS).map(round).reduce(least).expect("a round")
}

fn print_names() {
    for row in &ROWS {
        println!("{}", row.name);
    }
}

fn print_row(row: &Row) {
    println!("{}: {:.2?}", row.name, all_rounds(std::slice::from_ref(row)));
}

/// Prints a line for each size: the size, and the times of the proved side in a round of all sides
/// and in one alone. All sides come first: alone the processor learns the branches of the text.
fn print_round(row: &Row) {
    for size in [0, 1, 2] {
        let units = row.units(size);
        let (turns, alone) =
            row.with_sides(size, |sides| (sides.least(units)[0], sides.least_alone(units)));
        println!("{} {turns:.4} {alone:.4}", row.size(size));
    }
}

fn print_tables() {
    let found = all_rounds(&ROWS);
    println!(
        "Nanoseconds a record; a cell in the rows of a style and of a frame, a word in the row of \
         one word redrawn. The least of {ROUNDS} rounds.\n"
    );
    report::print_times(&found);
    println!();
    report::print_growth(&found);
    println!();
    report::print_goals(&found);
}

fn main() {
    let words: Vec<String> = env::args().skip(1).collect();
    let words: Vec<&str> = words.iter().map(String::as_str).collect();
    let whole = |word: &str| word.parse::<usize>().expect("a number");
    match words[..] {
        [] => print_tables(),
        ["rows"] => print_names(),
        [row] => print_row(&ROWS[whole(row)]),
        [row, "once"] => print_round(&ROWS[whole(row)]),
        [row, side, times] => {
            ROWS[whole(row)].with_sides(2, |sides| sides.only(side, whole(times)));
        }
        _ => panic!("arguments as the first comment of main.rs has them"),
    }
}
