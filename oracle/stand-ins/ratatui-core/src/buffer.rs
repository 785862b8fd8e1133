//! The screen and its cells.
//!
//! Document 01, 'Packed fields': "Cell, 64 bits: symbol 21 | foreground 8 | background 8 |
//! modifiers 9 | 18 bits never touched. A blank cell has symbol 32 and zeros." On styles:
//! "Applying it sets the given colours, then sets the add bits, then clears the remove bits."

use std::ops::{Index, IndexMut};

use crate::glyph::Glyph;
use crate::layout::{Position, Rect};
use crate::style::{Color, Modifier, Style};
use crate::symbols::merge::MergeStrategy;

/// Width of a symbol: its glyph's width field. A swallowed glyph "shows 0 cells".
pub trait CellWidth {
    fn cell_width(&self) -> u16;
}

impl CellWidth for str {
    fn cell_width(&self) -> u16 {
        Glyph::decode(self).map_or(0, Glyph::width)
    }
}

/// One cell of the screen.
#[derive(Debug, Clone, PartialEq, Eq)]
pub struct Cell {
    symbol: u32,
    pub fg: Color,
    pub bg: Color,
    pub modifier: Modifier,
    untouched: u32,
}

impl Cell {
    /// Unpacks a cell.
    pub fn from_packed(word: u64) -> Self {
        Self {
            symbol: (word >> 43) as u32,
            fg: Color::Indexed((word >> 35) as u8),
            bg: Color::Indexed((word >> 27) as u8),
            modifier: Modifier::from_low_bits(word >> 18),
            untouched: word as u32 & 0x3_ffff,
        }
    }

    /// Returns this cell as a packed word.
    pub fn packed(&self) -> u64 {
        u64::from(self.symbol) << 43
            | u64::from(number(self.fg)) << 35
            | u64::from(number(self.bg)) << 27
            | u64::from(self.modifier.bits()) << 18
            | u64::from(self.untouched)
    }

    /// Sets the symbol from a symbol string.
    pub fn set_symbol(&mut self, symbol: &str) -> &mut Self {
        let glyph = Glyph::decode(symbol).expect("a symbol to set");
        self.symbol = glyph.symbol();
        self
    }

    /// Sets the symbol; `Replace` is the only strategy.
    pub fn merge_symbol(&mut self, symbol: &str, strategy: MergeStrategy) -> &mut Self {
        match strategy {
            MergeStrategy::Replace => self.set_symbol(symbol),
        }
    }

    /// Applies a style: the given colours, then the add bits, then the remove bits.
    pub fn set_style(&mut self, style: Style) -> &mut Self {
        if let Some(fg) = style.fg {
            self.fg = fg;
        }
        if let Some(bg) = style.bg {
            self.bg = bg;
        }
        self.modifier.insert(style.add_modifier);
        self.modifier.remove(style.sub_modifier);
        self
    }
}

/// Returns the 8 bits of a colour.
fn number(color: Color) -> u8 {
    match color {
        Color::Indexed(number) => number,
        Color::Rgb(..) | Color::Black => unreachable!("only a custom shadow filter sets these"),
    }
}

/// A screen of cells, row by row.
#[derive(Debug, Clone)]
pub struct Buffer {
    pub area: Rect,
    cells: Vec<Cell>,
}

impl Buffer {
    /// Unpacks a screen, whose first cell is at column 0 of row 0.
    pub fn from_packed(area: Rect, words: &[u64]) -> Self {
        let count = usize::from(area.width) * usize::from(area.height);
        assert!(words.len() == count, "cells are not columns × rows");
        Self { area, cells: words.iter().copied().map(Cell::from_packed).collect() }
    }

    /// Returns the cells, packed.
    pub fn packed(&self) -> impl Iterator<Item = u64> {
        self.cells.iter().map(Cell::packed)
    }

    /// Applies a style to the cells of `area` that are on the screen.
    pub fn set_style(&mut self, area: Rect, style: Style) {
        let area = area.intersection(self.area);
        for y in area.top()..area.bottom() {
            for x in area.left()..area.right() {
                self[(x, y)].set_style(style);
            }
        }
    }

    /// Returns the index of the cell at a position. Panics if it is off the screen, as ratatui-core
    /// does; the oracle reports it.
    fn index_of(&self, position: Position) -> usize {
        assert!(
            self.area.contains(position),
            "position ({}, {}) is off the screen of {} × {}",
            position.x,
            position.y,
            self.area.width,
            self.area.height,
        );
        usize::from(position.y) * usize::from(self.area.width) + usize::from(position.x)
    }
}

impl<P: Into<Position>> Index<P> for Buffer {
    type Output = Cell;

    fn index(&self, position: P) -> &Cell {
        &self.cells[self.index_of(position.into())]
    }
}

impl<P: Into<Position>> IndexMut<P> for Buffer {
    fn index_mut(&mut self, position: P) -> &mut Cell {
        let index = self.index_of(position.into());
        &mut self.cells[index]
    }
}
