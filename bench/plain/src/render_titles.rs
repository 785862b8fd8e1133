//! Draws the titles of a block.

use crate::block::Block;
use crate::buffer::Screen;
use crate::layout::Rect;
use crate::text::{self, Alignment, AmbiguousWidth, TitlePosition, head};
use crate::title::{line_width_u16, render_title};

/// A block's titles and the screen to draw them on.
struct Titles<'a> {
    screen: Screen,
    cells: &'a mut [u64],
    styles: &'a [u64],
    records: &'a [u32],
    ambiguous: AmbiguousWidth,
    block: &'a Block,
}

impl<'a> Titles<'a> {
    /// Returns the titles at a position that have an alignment, given or by default.
    fn filtered(
        &self,
        position: TitlePosition,
        alignment: Alignment,
    ) -> impl Iterator<Item = (u32, &'a [u32])> + use<'a> {
        let block = self.block;
        text::lines(self.records).filter(move |&(word, _)| {
            head::resolve_position(word, block.titles_position) == position
                && head::resolve(word, block.titles_alignment) == alignment
        })
    }

    fn line_width(&self, glyphs: &[u32]) -> u16 {
        line_width_u16(glyphs, self.ambiguous)
    }

    fn draw(&mut self, area: Rect, alignment: Alignment, glyphs: &[u32]) {
        let Self { screen, styles, ambiguous, block, .. } = *self;
        let style = block.titles_style;
        render_title(screen, self.cells, styles, style, area, alignment, glyphs, ambiguous);
    }

    /// Draws titles from left to right while there is room. If `truncated` is given, that many of
    /// their first columns are cut off.
    fn render_titles_forward(
        &mut self,
        titles: impl Iterator<Item = (u32, &'a [u32])>,
        mut area: Rect,
        truncated: Option<u16>,
    ) {
        let mut offset = truncated.unwrap_or(0);
        for (word, glyphs) in titles {
            if area.is_empty() {
                return;
            }
            let width = area.width.min(self.line_width(glyphs)).saturating_sub(offset);
            let alignment = match truncated {
                Some(_) if offset > 0 => Alignment::Right,
                Some(_) => Alignment::Left,
                None => head::resolve(word, Alignment::Left),
            };
            self.draw(Rect { width, ..area }, alignment, glyphs);
            let advance = width.saturating_add(1);
            area.x = area.x.saturating_add(advance);
            area.width = area.width.saturating_sub(advance);
            offset = offset.saturating_sub(width).saturating_sub(1);
        }
    }

    fn render_left_titles(&mut self, position: TitlePosition, area: Rect) {
        let titles = self.filtered(position, Alignment::Left);
        self.render_titles_forward(titles, area, None);
    }

    fn render_center_titles(&mut self, position: TitlePosition, area: Rect) {
        let titles = || self.filtered(position, Alignment::Center);
        let spaced =
            |sum: u16, (_, glyphs)| sum.saturating_add(self.line_width(glyphs).saturating_add(1));
        let total = titles().fold(0, spaced).saturating_sub(1);
        let titles = titles();
        if total <= area.width {
            let x = area.x.saturating_add((area.width - total) / 2);
            self.render_titles_forward(titles, Rect { x, width: total, ..area }, None);
        } else {
            self.render_titles_forward(titles, area, Some((total - area.width) / 2));
        }
    }

    /// Draws the right titles, last one first.
    fn render_right_titles(&mut self, position: TitlePosition, mut area: Rect) {
        let block = self.block;
        let mut end = self.records.len();
        while let Some(at) = self.records[..end].iter().rposition(|&word| head::is_head(word)) {
            let (word, glyphs) = (self.records[at], &self.records[at + 1..end]);
            end = at;
            if area.is_empty()
                || head::resolve_position(word, block.titles_position) != position
                || head::resolve(word, block.titles_alignment) != Alignment::Right
            {
                continue;
            }
            let width = self.line_width(glyphs);
            let x = area.right().saturating_sub(width).max(area.x);
            let part = Rect { x, width: width.min(area.width), ..area };
            self.draw(part, head::resolve(word, Alignment::Left), glyphs);
            area.width = area.width.saturating_sub(width).saturating_sub(1);
        }
    }

    /// Draws the titles at a position of a nonempty rectangle: left, centre, right.
    fn render_title_position(&mut self, position: TitlePosition, met: Rect) {
        let borders = self.block.borders;
        let (left, right) = (u16::from(borders.left), u16::from(borders.right));
        let area = Rect {
            x: met.x.saturating_add(left),
            y: match position {
                TitlePosition::Top => met.y,
                TitlePosition::Bottom => met.bottom().saturating_sub(1),
            },
            width: met.width.saturating_sub(left).saturating_sub(right),
            height: 1,
        };
        self.render_left_titles(position, area);
        self.render_center_titles(position, area);
        self.render_right_titles(position, area);
    }
}

/// Draws a block's titles over a nonempty rectangle: those at the top, then those at the bottom.
pub fn render_titles(
    screen: Screen,
    cells: &mut [u64],
    styles: &[u64],
    records: &[u32],
    ambiguous: AmbiguousWidth,
    block: &Block,
    met: Rect,
) {
    let mut titles = Titles { screen, cells, styles, records, ambiguous, block };
    titles.render_title_position(TitlePosition::Top, met);
    titles.render_title_position(TitlePosition::Bottom, met);
}
