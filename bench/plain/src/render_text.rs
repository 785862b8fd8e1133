//! Draws the text of a notice in an area.

use crate::buffer::{Ink, Screen, paint_area, style_at};
use crate::layout::Rect;
use crate::line_composer::{Method, Wrap};
use crate::render_lines::{DrawCounts, TextOptions, render_lines};
use crate::text::{Alignment, AmbiguousWidth};
use crate::word_wrapper::Rule;

/// A notice without its block: its style, its text style, its default alignment, how its lines are
/// composed, the first line drawn, and how ambiguous glyphs are read.
#[derive(Clone, Copy)]
pub struct TextSettings {
    pub style: u8,
    pub text_style: u8,
    pub alignment: Alignment,
    pub wrap: Wrap,
    pub scroll: u16,
    pub ambiguous: AmbiguousWidth,
}

impl TextSettings {
    /// Returns the settings for composing and drawing its lines in `width` columns.
    fn text_options(self, width: u16) -> TextOptions {
        let (trim, method) = match self.wrap {
            Wrap::On { trim } => (trim, Method::WordWrap),
            Wrap::Off { column } => (false, Method::Truncate(column.into())),
        };
        TextOptions {
            rule: Rule { limit: width.into(), trim, ambiguous: self.ambiguous },
            method,
            default_alignment: self.alignment,
            style: self.text_style,
            scroll: self.scroll,
        }
    }
}

/// Applies the notice's style to a nonempty area inside the screen, then draws the lines.
pub fn render_text(
    screen: Screen,
    cells: &mut [u64],
    styles: &[u64],
    text: &[u32],
    inner: Rect,
    settings: TextSettings,
) -> DrawCounts {
    paint_area(screen, cells, inner, Ink::Style(style_at(styles, settings.style)));
    render_lines(screen, cells, styles, text, inner, settings.text_options(inner.width))
}
