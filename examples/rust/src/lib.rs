//! The framed notice's calls for Rust programs: slices, enums and `Result`. include/notice.h documents
//! each call and how records, styles and cells are packed; here settings are always valid.
#![deny(unsafe_code, unsafe_op_in_unsafe_fn)]

#[allow(unsafe_code)]
mod raw;

/// Why a call is refused; a refused call writes nothing. The numbers are the header's.
#[derive(Clone, Copy, Debug, PartialEq, Eq)]
pub enum Refusal {
    Screen = 1,
    Styles = 2,
    TextLength = 3,
    TextHeads = 4,
    Titles = 5,
    StyleNumber = 6,
    Symbol = 7,
    Limit = 8,
    ListLength = 9,
}

#[derive(Clone, Copy, Debug, Default, PartialEq, Eq)]
pub enum Alignment {
    #[default]
    Left,
    Center,
    Right,
}

/// How ambiguous glyphs, those of width code 7, are read: in one cell or in two. The numbers are the
/// header's.
#[derive(Clone, Copy, Debug, PartialEq, Eq)]
pub enum AmbiguousWidth {
    Narrow = 1,
    Wide = 2,
}

#[derive(Clone, Copy, Debug, Default, PartialEq, Eq)]
pub enum TitlePosition {
    #[default]
    Top,
    Bottom,
}

#[derive(Clone, Copy, Debug, PartialEq, Eq)]
pub enum Effect {
    Overlay,
    Symbol(u32),
}

#[derive(Clone, Copy, Debug, PartialEq, Eq)]
pub struct Shadow {
    pub effect: Effect,
    pub style: u8,
    pub x: i32,
    pub y: i32,
}

#[derive(Clone, Copy, Debug, PartialEq, Eq)]
pub enum Wrap {
    Off { column: u16 },
    On { trim: bool },
}

#[derive(Clone, Copy, Debug, Default, PartialEq, Eq)]
pub struct Rect {
    pub x: u16,
    pub y: u16,
    pub width: u16,
    pub height: u16,
}

#[derive(Clone, Copy, Debug, Default, PartialEq, Eq)]
pub struct Borders {
    pub top: bool,
    pub right: bool,
    pub bottom: bool,
    pub left: bool,
}

#[derive(Clone, Copy, Debug, Default, PartialEq, Eq)]
pub struct BorderSet {
    pub top_left: u32,
    pub top_right: u32,
    pub bottom_left: u32,
    pub bottom_right: u32,
    pub vertical_left: u32,
    pub vertical_right: u32,
    pub horizontal_top: u32,
    pub horizontal_bottom: u32,
}

#[derive(Clone, Copy, Debug, Default, PartialEq, Eq)]
pub struct Padding {
    pub left: u16,
    pub right: u16,
    pub top: u16,
    pub bottom: u16,
}

#[derive(Clone, Copy, Debug, Default, PartialEq, Eq)]
pub struct Block {
    pub borders: Borders,
    pub border_set: BorderSet,
    pub border_style: u8,
    pub style: u8,
    pub padding: Padding,
    pub titles_style: u8,
    pub titles_alignment: Alignment,
    pub titles_position: TitlePosition,
    pub shadow: Option<Shadow>,
}

#[derive(Clone, Copy, Debug, PartialEq, Eq)]
pub struct Notice {
    pub block: Block,
    pub style: u8,
    pub text_style: u8,
    pub alignment: Alignment,
    pub wrap: Wrap,
    pub ambiguous: AmbiguousWidth,
    pub scroll: u16,
}

/// A screen's cells, columns × rows of them, and the style table that style numbers refer to.
pub struct Screen<'a> {
    pub columns: u32,
    pub rows: u32,
    pub cells: &'a mut [u64],
    pub styles: &'a [u64],
}

#[derive(Clone, Copy, Debug, PartialEq, Eq)]
pub struct Counts {
    pub lines: u32,
    pub placed: u32,
    pub clipped: u32,
    pub zero_width: u32,
    pub over_wide: u32,
    pub dropped: u32,
}

#[derive(Clone, Copy, Debug, PartialEq, Eq)]
pub struct Rows {
    pub rows: u32,
    pub placed: u32,
    pub clipped: u32,
}

/// The inner area as drawn, and the numbers of composed lines and pages.
#[derive(Clone, Copy, Debug, PartialEq, Eq)]
pub struct PageCounts {
    pub inner: Rect,
    pub lines: u32,
    pub pages: u32,
}

/// Lists a text's composed lines and returns their number.
pub fn list_lines(
    text: &[u32],
    ambiguous: AmbiguousWidth,
    alignment: Alignment,
    limit: u16,
    trim: bool,
    list: &mut [u64],
) -> Result<usize, Refusal> {
    let answer = raw::list_lines(text, ambiguous as u8, alignment as u8, limit, trim.into(), list);
    accepted(answer.number).map(|()| answer.lines)
}

/// Tallies the lines and glyphs of a text.
pub fn tally(
    text: &[u32],
    ambiguous: AmbiguousWidth,
    limit: u16,
    trim: bool,
) -> Result<Counts, Refusal> {
    let raw::TallyAnswer { number, lines, placed, clipped, zero_width, over_wide, dropped } =
        raw::tally(text, ambiguous as u8, limit, trim.into());
    let counts = Counts { lines, placed, clipped, zero_width, over_wide, dropped };
    accepted(number).map(|()| counts)
}

impl Block {
    /// Returns the inner area, whatever the screen: an area without borders, titles and padding. The one
    /// that is drawn is smaller if the area overhangs the screen: `Notice::pages` returns it.
    pub fn inner(&self, titles: &[u32], area: Rect) -> Result<Rect, Refusal> {
        let raw::AreaAnswer { number, x, y, width, height } =
            raw::inner(self.flat(), titles, area.flat());
        accepted(number).map(|()| Rect { x, y, width, height })
    }

    /// Draws the block with its titles.
    pub fn draw(
        &self,
        screen: &mut Screen,
        titles: &[u32],
        ambiguous: AmbiguousWidth,
        area: Rect,
    ) -> Result<(), Refusal> {
        let Screen { columns, rows, cells, styles } = screen;
        let (size, area, block) = ([*columns, *rows], area.flat(), self.flat());
        accepted(raw::draw_block(size, cells, styles, titles, ambiguous as u8, area, block))
    }

    /// Returns the columns that a text needs for no line to be wrapped or cut off.
    pub fn line_width(
        &self,
        text: &[u32],
        ambiguous: AmbiguousWidth,
        titles: &[u32],
    ) -> Result<u32, Refusal> {
        let answer = raw::line_width(text, ambiguous as u8, titles, self.flat());
        accepted(answer.number).map(|()| answer.value)
    }

    fn flat(&self) -> raw::Block {
        let Self { borders, border_set: set, padding, .. } = *self;
        let shadow =
            self.shadow.unwrap_or(Shadow { effect: Effect::Overlay, style: 0, x: 0, y: 0 });
        let (kind, symbol) = match self.shadow.map(|shadow| shadow.effect) {
            None => (0, 0),
            Some(Effect::Overlay) => (1, 0),
            Some(Effect::Symbol(symbol)) => (2, symbol),
        };
        raw::Block {
            top_left: set.top_left,
            top_right: set.top_right,
            bottom_left: set.bottom_left,
            bottom_right: set.bottom_right,
            vertical_left: set.vertical_left,
            vertical_right: set.vertical_right,
            horizontal_top: set.horizontal_top,
            horizontal_bottom: set.horizontal_bottom,
            shadow_symbol: symbol,
            shadow_x: shadow.x,
            shadow_y: shadow.y,
            padding_left: padding.left,
            padding_right: padding.right,
            padding_top: padding.top,
            padding_bottom: padding.bottom,
            border_top: borders.top.into(),
            border_right: borders.right.into(),
            border_bottom: borders.bottom.into(),
            border_left: borders.left.into(),
            border_style: self.border_style,
            style: self.style,
            titles_style: self.titles_style,
            titles_alignment: self.titles_alignment as u8,
            titles_position: self.titles_position as u8,
            shadow: kind,
            shadow_style: shadow.style,
        }
    }
}

impl Notice {
    /// Draws the frame of the notice, its style first, and returns the inner area.
    pub fn draw_frame(
        &self,
        screen: &mut Screen,
        titles: &[u32],
        area: Rect,
    ) -> Result<Rect, Refusal> {
        let Screen { columns, rows, cells, styles } = screen;
        let (size, area, block) = ([*columns, *rows], area.flat(), self.block.flat());
        let ambiguous = self.ambiguous as u8;
        let raw::AreaAnswer { number, x, y, width, height } =
            raw::draw_frame(size, cells, styles, titles, ambiguous, area, self.style, block);
        accepted(number).map(|()| Rect { x, y, width, height })
    }

    /// Lays the notice's text into an area, from the scroll row on. No cell outside it is changed.
    pub fn draw_text(
        &self,
        screen: &mut Screen,
        text: &[u32],
        area: Rect,
    ) -> Result<Rows, Refusal> {
        let Screen { columns, rows, cells, styles } = screen;
        let size = [*columns, *rows];
        let raw::DrawAnswer { number, rows, placed, clipped } =
            raw::draw_text(size, cells, styles, text, area.flat(), self.flat());
        accepted(number).map(|()| Rows { rows, placed, clipped })
    }

    /// Returns the pages of the notice: page p, from 0, has scroll p × inner height, on blank cells.
    pub fn pages(
        &self,
        screen: &Screen,
        text: &[u32],
        titles: &[u32],
        area: Rect,
    ) -> Result<PageCounts, Refusal> {
        let Screen { columns, rows, cells, styles } = screen;
        let (size, area, block) = ([*columns, *rows], area.flat(), self.block.flat());
        let raw::PagesAnswer { number, x, y, width, height, lines, pages } =
            raw::pages(size, cells, styles, text, titles, area, block, self.flat());
        accepted(number).map(|()| PageCounts { inner: Rect { x, y, width, height }, lines, pages })
    }

    /// Returns the rows that the notice needs when its lines have this width.
    pub fn line_count(&self, text: &[u32], titles: &[u32], width: u16) -> Result<u32, Refusal> {
        let answer = raw::line_count(text, titles, self.block.flat(), self.flat(), width);
        accepted(answer.number).map(|()| answer.value)
    }

    fn flat(&self) -> raw::Text {
        let (wrap, column) = match self.wrap {
            Wrap::Off { column } => (0, column),
            Wrap::On { trim: false } => (1, 0),
            Wrap::On { trim: true } => (2, 0),
        };
        raw::Text {
            scroll: self.scroll,
            column,
            style: self.style,
            text_style: self.text_style,
            alignment: self.alignment as u8,
            wrap,
            ambiguous: self.ambiguous as u8,
        }
    }
}

impl Rect {
    fn flat(self) -> raw::Area {
        raw::Area { x: self.x, y: self.y, width: self.width, height: self.height }
    }
}

fn accepted(number: u32) -> Result<(), Refusal> {
    Err(match number {
        0 => return Ok(()),
        1 => Refusal::Screen,
        2 => Refusal::Styles,
        3 => Refusal::TextLength,
        4 => Refusal::TextHeads,
        5 => Refusal::Titles,
        6 => Refusal::StyleNumber,
        7 => Refusal::Symbol,
        8 => Refusal::Limit,
        9 => Refusal::ListLength,
        _ => unreachable!("{number}: every setting names a case"),
    })
}
