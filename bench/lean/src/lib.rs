//! The unchanged reflow.rs over stand-ins that cost almost nothing.
//!
//! The oracle's symbols are strings of sixteen digits, which are parsed for every width. Here a
//! symbol is a string of one byte, the width and the whitespace bit, so that only the Rust's own
//! work is timed. No real text is this cheap to read.

extern crate alloc;
extern crate self as ratatui_core;

include!(concat!(env!("OUT_DIR"), "/modules.rs"));

pub use stand_ins::{layout, style};

pub mod buffer {
    /// Width of a symbol.
    pub trait CellWidth {
        fn cell_width(&self) -> u16;
    }

    impl CellWidth for str {
        #[inline]
        fn cell_width(&self) -> u16 {
            self.as_bytes().first().map_or(0, |byte| u16::from(byte & 0b111))
        }
    }
}

pub mod text {
    use crate::style::Style;

    /// A symbol and the style to draw it with.
    #[derive(Debug, Clone, PartialEq, Eq, Hash)]
    pub struct StyledGrapheme<'a> {
        pub symbol: &'a str,
        pub style: Style,
    }

    impl StyledGrapheme<'_> {
        #[inline]
        pub fn is_whitespace(&self) -> bool {
            self.symbol.as_bytes().first().is_some_and(|byte| byte & 0b1000 != 0)
        }
    }
}

/// Returns the symbols of records, one byte each: "width 3 | whitespace 1" of the record, swapped.
pub fn symbols(records: &[u32]) -> String {
    let byte = |record: &u32| (record >> 7 & 0b111 | (record >> 6 & 1) << 3) as u8;
    records.iter().map(|record| char::from(byte(record))).collect()
}
