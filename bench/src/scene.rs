//! Screens, areas and frames to draw on, and the drawing calls of every side.

use oracle::{AmbiguousWidth, Drawn, Notice, Rect};
use ratatui_core::buffer::Buffer;
use ratatui_widgets::block::Block;
use rules::screen::Screen;

use crate::composing::answered;
use crate::records::Records;
use crate::rows::{Method, Page};
use crate::{flat, inputs, raw, translated, widgets};

/// Document 01's blank cell, with marks in the bits that no call touches.
const CELL: u64 = 32 << 43 | 0x1_5a5a;

/// "foreground given 1 | foreground 8 | background given 1 | background 8 | add 9 | remove 9 | 28
/// zeros": nothing, a foreground, both colours, and both colours and modifiers.
pub const STYLES: [u64; inputs::STYLES as usize] = [
    0,
    1 << 63 | 15 << 55,
    1 << 63 | 7 << 55 | 1 << 54 | 4 << 46,
    1 << 63 | 11 << 55 | 1 << 54 | 2 << 46 | 1 << 37 | 2 << 28,
];

/// Number of the paragraph style.
pub const PARAGRAPH_STYLE: u8 = 1;

/// Returns a block without a frame, with a style number.
fn bare_block(style: u8) -> raw::Block {
    raw::Block {
        top_left: 0,
        top_right: 0,
        bottom_left: 0,
        bottom_right: 0,
        vertical_left: 0,
        vertical_right: 0,
        horizontal_top: 0,
        horizontal_bottom: 0,
        shadow_symbol: 0,
        shadow_x: 0,
        shadow_y: 0,
        padding_left: 0,
        padding_right: 0,
        padding_top: 0,
        padding_bottom: 0,
        border_top: 0,
        border_right: 0,
        border_bottom: 0,
        border_left: 0,
        border_style: 0,
        style,
        titles_style: 0,
        titles_alignment: 0,
        titles_position: 0,
        shadow: 0,
        shadow_style: 0,
    }
}

/// Returns a block with all borders, a column of padding on each side, and a shadow with a symbol.
fn framed_block() -> raw::Block {
    raw::Block {
        top_left: 0x250c,
        top_right: 0x2510,
        bottom_left: 0x2514,
        bottom_right: 0x2518,
        vertical_left: 0x2502,
        vertical_right: 0x2502,
        horizontal_top: 0x2500,
        horizontal_bottom: 0x2500,
        shadow_symbol: 0x2591,
        shadow_x: 2,
        shadow_y: 1,
        padding_left: 1,
        padding_right: 1,
        border_top: 1,
        border_right: 1,
        border_bottom: 1,
        border_left: 1,
        border_style: 1,
        titles_style: 3,
        shadow: 2,
        shadow_style: 2,
        ..bare_block(2)
    }
}

/// Inputs of a drawing, without the text.
pub struct Scene {
    size: [u32; 2],
    pub titles: Vec<u32>,
    pub ambiguous: AmbiguousWidth,
    area: raw::Area,
    block: raw::Block,
    translated: plain::block::Block,
    /// Whether a frame is drawn before the text, which then goes into its inner area.
    pub has_frame: bool,
}

impl Scene {
    fn new([columns, rows]: [u16; 2], area: raw::Area, block: raw::Block) -> Self {
        Self {
            size: [columns, rows].map(u32::from),
            titles: Vec::new(),
            ambiguous: AmbiguousWidth::Narrow,
            area,
            block,
            translated: translated::block(flat::block(block)),
            has_frame: false,
        }
    }

    /// Returns a framed notice with room for its shadow.
    pub fn framed(screen: [u16; 2], titles: Vec<u32>, ambiguous: AmbiguousWidth) -> Self {
        let [columns, rows] = screen;
        let area = raw::Area { x: 1, y: 1, width: columns - 4, height: rows - 3 };
        Self { titles, ambiguous, has_frame: true, ..Self::new(screen, area, framed_block()) }
    }

    /// Returns the inner area of a framed notice, without the frame.
    pub fn inside(screen: [u16; 2], titles: Vec<u32>, ambiguous: AmbiguousWidth) -> Self {
        let area = Self::framed(screen, titles, ambiguous).inner();
        Self { ambiguous, ..Self::new(screen, area, bare_block(0)) }
    }

    /// Returns an area of one row in the middle of a screen, without a frame.
    pub fn line(screen: [u16; 2], width: u16) -> Self {
        let [columns, rows] = screen;
        let area = raw::Area { x: columns / 2, y: rows / 2, width, height: 1 };
        Self::new(screen, area, bare_block(0))
    }

    /// Returns a block over the whole screen that has only a style.
    pub fn bare(screen: [u16; 2]) -> Self {
        let [columns, rows] = screen;
        let area = raw::Area { x: 0, y: 0, width: columns, height: rows };
        Self::new(screen, area, bare_block(3))
    }

    pub fn cells(&self) -> Vec<u64> {
        vec![CELL; (self.size[0] * self.size[1]) as usize]
    }

    pub fn buffer(&self) -> Buffer {
        let [columns, rows] = self.size.map(|side| side as u16);
        Buffer::from_packed(Rect::new(0, 0, columns, rows), &self.cells())
    }

    /// Returns the area as the original takes it.
    pub fn area(&self) -> Rect {
        flat::rect(self.area)
    }

    fn inner(&self) -> raw::Area {
        let raw::AreaAnswer { x, y, width, height, .. } =
            raw::inner(self.block, &self.titles, self.area);
        raw::Area { x, y, width, height }
    }

    /// Returns the crate's widget of the block.
    pub fn widget<'r>(&self, titles: &'r Records) -> Block<'r> {
        widgets::block(flat::block(self.block), titles, Some(&STYLES))
    }

    /// Returns the settings of a page of a text. The last page has as many rows as the first, or
    /// all lines.
    pub fn settings(&self, text: &[u32], method: Method, page: Page) -> raw::Text {
        let Self { titles, area, block, .. } = self;
        let ambiguous = translated::ambiguous_number(self.ambiguous);
        let still = raw::Text {
            scroll: 0,
            column: 0,
            style: PARAGRAPH_STYLE,
            text_style: 2,
            alignment: 0,
            wrap: u8::from(method == Method::Wrapped),
            ambiguous,
        };
        let lines = raw::line_count(text, titles, *block, still, self.inner().width).value;
        let columns = raw::line_width(text, ambiguous, titles, *block).value;
        let beyond = |needed: u32, room: u16| needed.saturating_sub(room.into()) as u16;
        raw::Text {
            scroll: if page == Page::Last { beyond(lines, area.height) } else { 0 },
            column: if method == Method::TruncatedAtEnd { beyond(columns, area.width) } else { 0 },
            ..still
        }
    }

    /// Returns the settings of a notice for the oracle.
    pub fn notice(&self, settings: raw::Text) -> Notice {
        flat::notice(self.block, settings)
    }

    /// Draws the frame and returns its inner area.
    pub fn proved_frame(&self, cells: &mut [u64]) -> raw::Area {
        let Self { size, titles, area, block, .. } = self;
        let ambiguous = translated::ambiguous_number(self.ambiguous);
        let style = PARAGRAPH_STYLE;
        let raw::AreaAnswer { number, x, y, width, height } =
            raw::draw_frame(*size, cells, &STYLES, titles, ambiguous, *area, style, *block);
        assert_eq!(number, 0, "refused");
        raw::Area { x, y, width, height }
    }

    pub fn plain_frame(&self, cells: &mut [u64]) -> plain::Rect {
        let Self { titles, translated: block, .. } = self;
        let [columns, rows] = self.size;
        let area = translated::rect(self.area());
        let ambiguous = translated::ambiguous(self.ambiguous);
        let style = PARAGRAPH_STYLE;
        plain::draw_frame(columns, rows, cells, &STYLES, titles, ambiguous, area, style, block)
            .expect("no refusal")
    }

    /// Returns the oracle's cells and inner area.
    pub fn oracle_frame(&self) -> (Vec<u64>, Rect) {
        let Self { titles, ambiguous, .. } = self;
        let [columns, rows] = self.size;
        let mut cells = self.cells();
        let (area, style, block) = (self.area(), PARAGRAPH_STYLE, flat::block(self.block));
        let inner = oracle::draw_frame(
            columns, rows, &mut cells, &STYLES, titles, *ambiguous, area, style, block,
        );
        (cells, answered(inner))
    }

    /// Draws a text, after its frame if there is one, and returns the counts.
    pub fn proved_text(&self, cells: &mut [u64], text: &[u32], settings: raw::Text) -> [u32; 3] {
        let area = if self.has_frame { self.proved_frame(cells) } else { self.area };
        let raw::DrawAnswer { number, rows, placed, clipped } =
            raw::draw_text(self.size, cells, &STYLES, text, area, settings);
        assert_eq!(number, 0, "refused");
        [rows, placed, clipped]
    }

    pub fn plain_text(
        &self,
        cells: &mut [u64],
        text: &[u32],
        settings: plain::TextSettings,
    ) -> [u32; 3] {
        let [columns, rows] = self.size;
        let area =
            if self.has_frame { self.plain_frame(cells) } else { translated::rect(self.area()) };
        let plain::DrawCounts { rows, placed, clipped } =
            plain::draw_text(columns, rows, cells, &STYLES, text, area, settings)
                .expect("no refusal");
        [rows, placed, clipped]
    }

    /// Returns the oracle's cells and counts. It draws frame and text at once.
    pub fn oracle_text(&self, text: &[u32], settings: Notice) -> (Vec<u64>, [u32; 3]) {
        let Self { titles, .. } = self;
        let [columns, rows] = self.size;
        let mut cells = self.cells();
        let (drawn, area) = (&mut cells, self.area());
        let answer = if self.has_frame {
            oracle::draw_notice(columns, rows, drawn, &STYLES, text, titles, area, settings)
        } else {
            oracle::draw_text(columns, rows, drawn, &STYLES, text, area, settings.text())
        };
        let Drawn { rows, placed, clipped, .. } = answered(answer);
        (cells, [rows, placed, clipped])
    }

    /// Returns the cells that documents 01 and 02 give a text that clips a glyph, which the crate
    /// draws in another way.
    pub fn clipped_text(&self, text: &[u32], settings: Notice) -> Vec<u64> {
        let [columns, rows] = self.size.map(i64::from);
        let mut screen = Screen { columns, rows, cells: self.cells(), styles: STYLES.to_vec() };
        let area = self.area().into();
        if self.has_frame {
            rules::notice::draw(&mut screen, text, &self.titles, area, &settings);
        } else {
            rules::apart::draw_text(&mut screen, text, area, &settings.text());
        }
        screen.cells
    }

    pub fn proved_block(&self, cells: &mut [u64]) {
        let Self { size, titles, area, block, .. } = self;
        let ambiguous = translated::ambiguous_number(self.ambiguous);
        let number = raw::draw_block(*size, cells, &STYLES, titles, ambiguous, *area, *block);
        assert_eq!(number, 0, "refused");
    }

    pub fn plain_block(&self, cells: &mut [u64]) {
        let Self { titles, translated: block, .. } = self;
        let [columns, rows] = self.size;
        let area = translated::rect(self.area());
        let ambiguous = translated::ambiguous(self.ambiguous);
        plain::draw_block(columns, rows, cells, &STYLES, titles, ambiguous, area, block)
            .expect("no refusal");
    }
}
