//! The settings of a notice, with style numbers and symbols as document 01 packs them.

pub use ratatui_core::layout::{Alignment, Rect};
pub use ratatui_widgets::block::{Padding, TitlePosition};

/// Which sides have a border.
#[derive(Debug, Default, Clone, Copy, PartialEq, Eq)]
pub struct Borders {
    pub top: bool,
    pub right: bool,
    pub bottom: bool,
    pub left: bool,
}

/// The eight border symbols.
#[derive(Debug, Default, Clone, Copy, PartialEq, Eq)]
pub struct BorderSet {
    pub top_left: u32,
    pub top_right: u32,
    pub bottom_left: u32,
    pub bottom_right: u32,
    pub vertical_left: u32,
    pub vertical_right: u32,
    pub horizontal_top: u32,
    pub horizontal_bottom: u32,
}

/// What a shadow does to its cells after styling them.
#[derive(Debug, Clone, Copy, PartialEq, Eq)]
pub enum Effect {
    Overlay,
    Symbol(u32),
}

/// A block's shadow, offset by x and y.
#[derive(Debug, Default, Clone, Copy, PartialEq, Eq)]
pub enum Shadow {
    #[default]
    Absent,
    Present {
        effect: Effect,
        style: u8,
        x: i32,
        y: i32,
    },
}

/// A block without its titles, which are separate records.
#[derive(Debug, Default, Clone, Copy, PartialEq, Eq)]
pub struct Block {
    pub borders: Borders,
    pub border_set: BorderSet,
    pub border_style: u8,
    pub style: u8,
    pub padding: Padding,
    pub titles_style: u8,
    pub titles_alignment: Alignment,
    pub titles_position: TitlePosition,
    pub shadow: Shadow,
}

/// How lines are composed.
#[derive(Debug, Clone, Copy, PartialEq, Eq)]
pub enum Wrap {
    /// Truncated, and scrolled right by `column`.
    Off { column: u16 },
    /// Word-wrapped.
    On { trim: bool },
}

/// How width code 7, ambiguous, is read: as 1 cell or as 2.
#[derive(Debug, Clone, Copy, PartialEq, Eq)]
pub enum AmbiguousWidth {
    Narrow,
    Wide,
}

/// The settings of a text that is drawn without a frame. The text is separate records.
#[derive(Debug, Clone, Copy, PartialEq, Eq)]
pub struct TextSettings {
    pub style: u8,
    pub text_style: u8,
    pub alignment: Alignment,
    pub wrap: Wrap,
    pub ambiguous: AmbiguousWidth,
    pub scroll: u16,
}

/// A framed notice without its text, which is separate records.
#[derive(Debug, Clone, Copy, PartialEq, Eq)]
pub struct Notice {
    pub block: Block,
    pub style: u8,
    pub text_style: u8,
    pub alignment: Alignment,
    pub wrap: Wrap,
    pub ambiguous: AmbiguousWidth,
    pub scroll: u16,
}

impl Notice {
    /// Returns the settings other than the block.
    pub fn text(self) -> TextSettings {
        let Self { block: _, style, text_style, alignment, wrap, ambiguous, scroll } = self;
        TextSettings { style, text_style, alignment, wrap, ambiguous, scroll }
    }
}
