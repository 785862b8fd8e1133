//! A screen of packed cells to draw on.

use oracle::{AmbiguousWidth, Block, Drawn, Notice, Outcome, Rect};

use crate::notation::letter;

/// A blank cell: symbol 32 and zeros.
pub const BLANK_CELL: u64 = 32 << 43;

/// A style table whose only style, number 0, changes nothing.
pub const PLAIN: &[u64] = &[0];

/// A screen and the style table for drawing on it.
#[derive(Clone)]
pub struct Screen {
    pub columns: u32,
    pub rows: u32,
    pub cells: Vec<u64>,
    pub styles: Vec<u64>,
}

impl Screen {
    /// Returns a screen filled with one cell.
    pub fn filled(columns: u32, rows: u32, cell: u64) -> Self {
        Self { columns, rows, cells: vec![cell; (columns * rows) as usize], styles: PLAIN.to_vec() }
    }

    pub fn blank(columns: u32, rows: u32) -> Self {
        Self::filled(columns, rows, BLANK_CELL)
    }

    pub fn with_styles(mut self, styles: &[u64]) -> Self {
        self.styles = styles.to_vec();
        self
    }

    pub fn draw_block(
        &mut self,
        titles: &[u32],
        ambiguous: AmbiguousWidth,
        area: Rect,
        block: Block,
    ) -> Outcome<()> {
        oracle::draw_block(
            self.columns,
            self.rows,
            &mut self.cells,
            &self.styles,
            titles,
            ambiguous,
            area,
            block,
        )
    }

    pub fn draw_notice(&mut self, text: &[u32], area: Rect, notice: Notice) -> Outcome<Drawn> {
        oracle::draw_notice(
            self.columns,
            self.rows,
            &mut self.cells,
            &self.styles,
            text,
            &[],
            area,
            notice,
        )
    }

    /// Draws a notice by the crate `rules`.
    pub fn draw_by_rules(&mut self, text: &[u32], area: Rect, notice: Notice) -> Drawn {
        self.by_rules(|screen| rules::notice::draw(screen, text, &[], area.into(), &notice))
    }

    /// Draws on a screen of the crate `rules`, and returns what `draw` answers.
    pub fn by_rules<T>(&mut self, draw: impl FnOnce(&mut rules::screen::Screen) -> T) -> T {
        let mut screen = rules::screen::Screen {
            columns: self.columns.into(),
            rows: self.rows.into(),
            cells: self.cells.clone(),
            styles: self.styles.clone(),
        };
        let answer = draw(&mut screen);
        self.cells = screen.cells;
        answer
    }

    /// Returns the symbols as letters, with a bar between rows.
    pub fn symbols(&self) -> String {
        let row = |cells: &[u64]| -> String {
            cells.iter().map(|cell| letter((cell >> 43) as u32)).collect()
        };
        let rows: Vec<String> = self.cells.chunks(self.columns as usize).map(row).collect();
        rows.join("|")
    }
}
