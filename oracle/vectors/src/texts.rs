//! Test texts and the answers on them: `crates/test_texts` generates the same texts.

pub mod case;
mod long;
mod questions;
pub mod records;
mod several;
mod short;

pub use questions::QUESTIONS;

use crate::Part;
use case::Case;

/// The parts, in the order of the data.
pub const PARTS: [Part<Case>; 4] = [
    Part { name: "short lines", count: 196_080, case: short::case },
    Part { name: "ambiguous lines", count: 93_620, case: short::ambiguous_case },
    Part { name: "several lines", count: 60_000, case: several::case },
    Part { name: "long texts", count: 400, case: long::case },
];
