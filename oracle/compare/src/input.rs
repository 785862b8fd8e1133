//! The inputs of all calls in one struct; each call uses some of its fields.

use crate::raw::{Area, Block, Text};
use crate::records::{is_ambiguous, is_head};

/// A call, or the two that draw a notice.
#[derive(Clone, Copy, PartialEq, Eq)]
pub enum Call {
    ListLines,
    Tally,
    Inner,
    DrawBlock,
    DrawFrame,
    DrawText,
    /// `draw_frame`, then `draw_text` into the area that it answered, on the same cells.
    Pair,
    Pages,
    LineCount,
    LineWidth,
}

impl Call {
    pub const ALL: [Self; 10] = [
        Self::ListLines,
        Self::Tally,
        Self::Inner,
        Self::DrawBlock,
        Self::DrawFrame,
        Self::DrawText,
        Self::Pair,
        Self::Pages,
        Self::LineCount,
        Self::LineWidth,
    ];

    pub fn name(self) -> &'static str {
        match self {
            Self::ListLines => "list_lines",
            Self::Tally => "tally",
            Self::Inner => "inner",
            Self::DrawBlock => "draw_block",
            Self::DrawFrame => "draw_frame",
            Self::DrawText => "draw_text",
            Self::Pair => "draw_frame, then draw_text",
            Self::Pages => "pages",
            Self::LineCount => "line_count",
            Self::LineWidth => "line_width",
        }
    }

    /// Whether the call takes a screen and styles.
    pub fn has_screen(self) -> bool {
        matches!(
            self,
            Self::DrawBlock | Self::DrawFrame | Self::DrawText | Self::Pair | Self::Pages
        )
    }

    /// Whether the call takes a text.
    pub fn reads_text(self) -> bool {
        !matches!(self, Self::Inner | Self::DrawBlock | Self::DrawFrame)
    }

    /// Whether the call takes a block and its titles.
    pub fn has_block(self) -> bool {
        !matches!(self, Self::ListLines | Self::Tally | Self::DrawText)
    }

    /// Whether the call takes the paragraph style.
    pub fn has_paragraph_style(self) -> bool {
        self.has_screen() && self != Self::DrawBlock
    }

    /// Whether the call reads widths, and so takes the setting for width code 7.
    pub fn reads_widths(self) -> bool {
        self != Self::Inner
    }

    /// Whether the call reads the widths of titles.
    pub fn draws_titles(self) -> bool {
        matches!(self, Self::DrawBlock | Self::DrawFrame | Self::Pair)
    }

    /// Whether the call takes the settings of a text.
    pub fn has_settings(self) -> bool {
        matches!(self, Self::DrawText | Self::Pair | Self::Pages | Self::LineCount)
    }
}

#[derive(Clone)]
pub struct Input {
    pub text: Vec<u32>,
    pub titles: Vec<u32>,
    pub styles: Vec<u64>,
    pub columns: u32,
    pub rows: u32,
    pub cells: Vec<u64>,
    pub area: Area,
    pub block: Block,
    /// Includes the alignment of `list_lines`, and `ambiguous` of every call that reads widths.
    pub settings: Text,
    /// The limit of `list_lines` and `tally`, the width of `line_count`.
    pub limit: u16,
    pub trim: u8,
    pub list: Vec<u64>,
}

impl Input {
    /// Returns an empty text on a screen of one blank cell, with one style that changes nothing.
    pub fn plain() -> Self {
        let mut input = Self {
            text: Vec::new(),
            titles: Vec::new(),
            styles: vec![0],
            columns: 1,
            rows: 1,
            cells: vec![crate::records::BLANK],
            area: Area { x: 0, y: 0, width: 1, height: 1 },
            block: NO_FRAME,
            settings: PLAIN,
            limit: 1,
            trim: 0,
            list: Vec::new(),
        };
        for knob in crate::knobs::SYMBOLS {
            (knob.set)(&mut input, i64::from(b'#'));
        }
        input
    }

    /// Whether a width that the call reads is ambiguous.
    pub fn holds_ambiguous(&self, call: Call) -> bool {
        call.reads_text() && self.text.iter().copied().any(is_ambiguous)
            || call.draws_titles() && self.titles.iter().copied().any(is_ambiguous)
    }

    /// Whether a text line has no glyph: its head is the last record, or another head is next.
    pub fn holds_empty_line(&self) -> bool {
        let ends = self.text.last().is_some_and(|record| is_head(*record));
        ends || self.text.windows(2).any(|pair| is_head(pair[0]) && is_head(pair[1]))
    }
}

/// Unwrapped, and ambiguous widths read narrow.
const PLAIN: Text =
    Text { scroll: 0, column: 0, style: 0, text_style: 0, alignment: 0, wrap: 0, ambiguous: 1 };

const NO_FRAME: Block = Block {
    top_left: 0,
    top_right: 0,
    bottom_left: 0,
    bottom_right: 0,
    vertical_left: 0,
    vertical_right: 0,
    horizontal_top: 0,
    horizontal_bottom: 0,
    shadow_symbol: 0,
    shadow_x: 0,
    shadow_y: 0,
    padding_left: 0,
    padding_right: 0,
    padding_top: 0,
    padding_bottom: 0,
    border_top: 0,
    border_right: 0,
    border_bottom: 0,
    border_left: 0,
    border_style: 0,
    style: 0,
    titles_style: 0,
    titles_alignment: 0,
    titles_position: 0,
    shadow: 0,
    shadow_style: 0,
};
