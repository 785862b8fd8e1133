//! The answers of ratatui-widgets 0.3.2 to the inputs of document 01.
//!
//! Every function takes packed input as document 01 defines it, runs the unchanged Rust files over
//! the stand-ins and packs their result. Where widths are read it also takes document 02's setting
//! for width code 7, and gives the Rust the 1 or 2 read for it. Composed lines are given document
//! 02's mark by counting the lines of each text line alone. Document 02's two calls for a frame and
//! for a text, [`draw_frame`] and [`draw_text`], are there beside the drawing of both at once,
//! [`draw_notice`]. The oracle has no refusals: its answers to inputs that document 01 refuses are
//! meaningless. A panic of the Rust is an answer as well, [`Outcome::Panicked`].

mod compose;
mod counts;
mod draw;
mod measure;
mod outcome;
mod records;
mod settings;
mod tally;
mod widgets;

pub use compose::{ComposedLine, truncated_lines, wrapped_lines};
pub use counts::{Drawn, notice_counts, notice_lines, text_counts};
pub use draw::{draw_block, draw_frame, draw_notice, draw_text};
pub use measure::{
    drawn_inner, horizontal_space, inner, line_count, line_width, proportional_padding,
    vertical_space,
};
pub use outcome::Outcome;
pub use settings::{
    Alignment, AmbiguousWidth, Block, BorderSet, Borders, Effect, Notice, Padding, Rect, Shadow,
    TextSettings, TitlePosition, Wrap,
};
pub use tally::{Tally, tally};
