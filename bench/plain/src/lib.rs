//! The framed notice in plain Rust, timed against the proved archive.
//!
//! A translation of `crates/`, module by module: the same algorithm over the same packed records,
//! the same checks of causes in the same order, the same passes. It is written as unproved Rust
//! usually is: state is mutated in place, slices are iterated or indexed with the usual bounds
//! checks, and nothing is unsafe.
#![forbid(unsafe_code)]

pub mod block;
mod buffer;
mod cell;
mod draw_block;
mod draw_frame;
mod draw_text;
mod layout;
mod line_composer;
mod line_truncator;
mod list_lines;
mod paragraph;
mod place;
mod refuse;
mod render_block;
mod render_borders;
mod render_line;
mod render_lines;
mod render_text;
mod render_titles;
mod shadow;
mod tally;
mod text;
mod title;
mod word_wrapper;

pub use draw_block::draw_block;
pub use draw_frame::draw_frame;
pub use draw_text::draw_text;
pub use layout::Rect;
pub use line_composer::Wrap;
pub use list_lines::list_lines;
pub use refuse::Refusal;
pub use render_lines::DrawCounts;
pub use render_text::TextSettings;
pub use tally::{TallyCounts, tally};
pub use text::{Alignment, AmbiguousWidth, TitlePosition};
