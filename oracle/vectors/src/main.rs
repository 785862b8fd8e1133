//! Writes the Rust's answers for `crates/replay_texts`, `crates/replay_blocks` and
//! `crates/replay_notices`, which generate the same cases and compare.
//!
//! Usage: `vectors [FOLDER]`, from the repository's root; FOLDER is `crates` by default. Writes one
//! file for each question into the `data` folder of the crate that reads it: `wrapped`, `tally`,
//! `truncated` and `measures` for texts, `inner`, `blocks` and `titled` for blocks, `notices`,
//! `frames` and `texts` for notices. A file has the checksum of the answer to each case, 4 bytes each, high byte first:
//! texts of short lines, of several lines and long texts; inner areas; blocks without titles on
//! small and on large screens; blocks with titles on small and on wide screens; notices on narrow,
//! small and large screens. A panic of the Rust ends the program with exit status 1.
//!
//! `notices` has what C-15's two calls leave together, the frame and then the text in the area that
//! it answers: the drawing of the whole notice. `frames` has the frame alone, and `texts` the text
//! alone, in the area of the notice as it is.
//!
//! A text that clips a glyph is the one case not answered by the Rust, which writes the glyph or
//! panics. The file has the answer of document 01 and C-14, by the crate `rules`. These cases are
//! counted, and those with a glyph that starts inside and runs past the right edge, halved.

mod blocks;
mod notices;
mod random;
mod sums;
mod texts;

use std::fs;
use std::path::Path;
use std::process::ExitCode;

use oracle::Outcome;

/// A part of the cases: their number, and a function from a number to its case.
pub struct Part<C> {
    pub name: &'static str,
    pub count: u32,
    pub case: fn(u32) -> C,
}

/// A question: its file, and the checksum of the Rust's answer on a case.
pub struct Question<C> {
    pub file: &'static str,
    pub ask: fn(&C) -> Outcome<u32>,
}

fn main() -> ExitCode {
    let folder = std::env::args().nth(1);
    let folder = Path::new(folder.as_deref().unwrap_or("crates"));
    match write_all(folder) {
        Ok(()) => ExitCode::SUCCESS,
        Err(message) => {
            eprintln!("{message}");
            ExitCode::FAILURE
        }
    }
}

/// Writes the file of every question.
fn write_all(folder: &Path) -> Result<(), String> {
    for question in &texts::QUESTIONS {
        write(folder, question, &texts::PARTS)?;
    }
    write(folder, &blocks::INNER, &blocks::AREAS)?;
    write(folder, &blocks::DRAWN, &blocks::SCREENS)?;
    write(folder, &blocks::TITLED, &blocks::TITLED_SCREENS)?;
    for question in [&notices::DRAWN, &notices::FRAMES, &notices::TEXTS] {
        write(folder, question, &notices::SCREENS)?;
    }
    notices::print_kinds();
    Ok(())
}

/// Writes the file of a question: the checksums of its parts in order.
fn write<C>(folder: &Path, question: &Question<C>, parts: &[Part<C>]) -> Result<(), String> {
    let mut data = Vec::new();
    for part in parts {
        for number in 0..part.count {
            let sum = answer(question, &(part.case)(number));
            let place = || format!("{}, {}, case {number}", question.file, part.name);
            data.extend(sum.map_err(|message| format!("{}: {message}", place()))?.to_be_bytes());
        }
        println!("{}, {}: {} cases", question.file, part.name, part.count);
    }
    fs::write(folder.join(question.file), data)
        .map_err(|error| format!("{}: {error}", question.file))
}

/// Returns the checksum of the Rust's answer.
fn answer<C>(question: &Question<C>, case: &C) -> Result<u32, String> {
    match (question.ask)(case) {
        Outcome::Value(sum) => Ok(sum),
        Outcome::Panicked(message) => Err(message),
    }
}
