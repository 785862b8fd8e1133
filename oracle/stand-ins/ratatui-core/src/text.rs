//! Texts, their lines, and drawing a title line.
//!
//! Document 01, 'Rows, pages, tally': "For each glyph of width above 0 its first cell gets the
//! symbol, then the text style, then the glyph's own style"; and 'Inner area and frame': "A title
//! line of width t in w columns: t ≤ w starts at 0, w - t if right; t > w hides the first t - w
//! columns if right, else none. Glyphs starting in hidden columns or of width 0 aren't drawn;
//! drawing stops at the first that overruns w."

use crate::buffer::{Buffer, CellWidth};
use crate::glyph::Glyph;
use crate::layout::{Alignment, Rect};
use crate::style::Style;
use crate::widgets::Widget;

/// A symbol and the style to draw it with.
#[derive(Debug, Clone, PartialEq, Eq, Hash)]
pub struct StyledGrapheme<'a> {
    pub symbol: &'a str,
    pub style: Style,
}

impl StyledGrapheme<'_> {
    /// Returns the glyph's whitespace field.
    pub fn is_whitespace(&self) -> bool {
        Glyph::decode(self.symbol).is_some_and(Glyph::is_whitespace)
    }
}

/// One glyph with its own style.
#[derive(Debug, Clone, PartialEq, Eq, Hash)]
pub struct Span<'a> {
    pub symbol: &'a str,
    pub style: Style,
}

impl<'a> Span<'a> {
    /// Returns the glyph, styled by `base` and then by its own style.
    pub fn styled_graphemes(
        &self,
        base: Style,
    ) -> impl Iterator<Item = StyledGrapheme<'a>> + use<'a> {
        std::iter::once(StyledGrapheme { symbol: self.symbol, style: base.patch(self.style) })
    }
}

/// A line of glyphs; without an alignment it has the default of its notice or block.
#[derive(Debug, Default, Clone, PartialEq, Eq, Hash)]
pub struct Line<'a> {
    pub spans: Vec<Span<'a>>,
    pub alignment: Option<Alignment>,
}

impl<'a> Line<'a> {
    /// Returns the sum of the widths of all glyphs.
    pub fn width(&self) -> usize {
        let widths = self.spans.iter().map(|span| span.symbol.cell_width());
        widths.map(usize::from).sum()
    }

    /// Returns the glyphs, each styled by `base` and then by its own style.
    pub fn styled_graphemes(&self, base: Style) -> impl Iterator<Item = StyledGrapheme<'a>> {
        self.spans.iter().flat_map(move |span| span.styled_graphemes(base))
    }

    #[must_use]
    pub fn left_aligned(self) -> Self {
        Self { alignment: Some(Alignment::Left), ..self }
    }

    #[must_use]
    pub fn right_aligned(self) -> Self {
        Self { alignment: Some(Alignment::Right), ..self }
    }
}

impl Widget for Line<'_> {
    fn render(self, area: Rect, buf: &mut Buffer) {
        Widget::render(&self, area, buf);
    }
}

/// Draws a title line in the columns of `area`. The area already has the titles style.
impl Widget for &Line<'_> {
    fn render(self, area: Rect, buf: &mut Buffer) {
        let right = self.alignment == Some(Alignment::Right);
        let line_width = self.width();
        let columns = usize::from(area.width);
        let indent = if right { columns.saturating_sub(line_width) } else { 0 };
        let hidden = if right { line_width.saturating_sub(columns) } else { 0 };

        let mut end = 0;
        for span in &self.spans {
            let width = usize::from(span.symbol.cell_width());
            let start = end;
            end += width;
            if start < hidden || width == 0 {
                continue;
            }
            if indent + end - hidden > columns {
                break;
            }
            let column = u16::try_from(indent + start - hidden).expect("inside the area");
            buf[(area.left() + column, area.top())].set_symbol(span.symbol).set_style(span.style);
        }
    }
}

/// The lines of a notice.
#[derive(Debug, Default, Clone, PartialEq, Eq, Hash)]
pub struct Text<'a> {
    pub lines: Vec<Line<'a>>,
    pub style: Style,
    pub alignment: Option<Alignment>,
}

impl<'a> Text<'a> {
    pub fn iter(&self) -> impl Iterator<Item = &Line<'a>> {
        self.lines.iter()
    }

    /// Returns the number of text lines.
    pub fn height(&self) -> usize {
        self.lines.len()
    }
}
