//! A screen's cells, and painting a style or a symbol on the cells of a rectangle.

use crate::cell;
use crate::layout::Rect;

#[derive(Clone, Copy)]
pub struct Screen {
    pub columns: u16,
    pub rows: u16,
}

impl Screen {
    pub fn area(self) -> Rect {
        Rect { x: 0, y: 0, width: self.columns, height: self.rows }
    }

    /// Returns the cells of row y from column `left` up to `right`.
    pub fn row_part(self, cells: &mut [u64], y: usize, left: u16, right: u16) -> &mut [u64] {
        let row = y * usize::from(self.columns);
        &mut cells[row + usize::from(left)..row + usize::from(right)]
    }
}

/// What is painted on a cell: a style, a symbol, or a symbol and then a style.
#[derive(Clone, Copy)]
pub enum Ink {
    Style(u64),
    Symbol(u32),
    Both(u32, u64),
}

impl Ink {
    pub fn on(self, cell: u64) -> u64 {
        match self {
            Self::Style(style) => cell::set_style(style, cell),
            Self::Symbol(symbol) => cell::set_symbol(symbol, cell),
            Self::Both(symbol, style) => cell::set_style(style, cell::set_symbol(symbol, cell)),
        }
    }
}

/// Paints every cell of a rectangle inside the screen.
pub fn paint_area(screen: Screen, cells: &mut [u64], area: Rect, ink: Ink) {
    for y in area.y..area.bottom() {
        for cell in screen.row_part(cells, y.into(), area.x, area.right()) {
            *cell = ink.on(*cell);
        }
    }
}

/// Returns the style with a number, or 0 if there is none.
pub fn style_at(styles: &[u64], number: u8) -> u64 {
    styles.get(usize::from(number)).copied().unwrap_or(0)
}
