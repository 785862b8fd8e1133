//! The Rust files of ratatui-widgets 0.3.2, built unchanged over the stand-ins.
//!
//! build.rs copies them; they aren't kept in this repository. The two functions below make
//! crate-private methods of block.rs public.

extern crate alloc;

include!(concat!(env!("OUT_DIR"), "/modules.rs"));

/// `Block::horizontal_space`: the columns that a block takes on the left and right.
pub fn horizontal_space(block: &block::Block<'_>) -> (u16, u16) {
    block.horizontal_space()
}

/// `Block::vertical_space`: the rows that a block takes at the top and bottom.
pub fn vertical_space(block: &block::Block<'_>) -> (u16, u16) {
    block.vertical_space()
}
