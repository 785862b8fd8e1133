//! Stand-in for `ratatui-core`, whose code document 01 replaces by its rules:
//! "Rectangle, cell, style, grapheme and title-line code of ratatui-core isn't among the files: its
//! meaning is given below (a glyph's width and whitespace are its fields), and the oracle is built
//! with the same stand-ins."
//!
//! Names and signatures are those that the Rust files use; only what they use is here.

pub mod buffer;
pub mod glyph;
pub mod layout;
pub mod style;
pub mod symbols;
pub mod text;
pub mod widgets;
