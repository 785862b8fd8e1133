//! Cells, styles and rectangles on the screen.

use oracle::Rect;

/// A rectangle of unbounded numbers.
#[derive(Debug, Clone, Copy)]
pub struct Area {
    pub x: i64,
    pub y: i64,
    pub width: i64,
    pub height: i64,
}

impl From<Rect> for Area {
    fn from(rect: Rect) -> Self {
        let [x, y, width, height] = [rect.x, rect.y, rect.width, rect.height].map(i64::from);
        Self { x, y, width, height }
    }
}

impl Area {
    /// Returns x, y, width and height.
    pub fn numbers(self) -> [i64; 4] {
        [self.x, self.y, self.width, self.height]
    }

    pub fn is_empty(self) -> bool {
        self.width == 0 || self.height == 0
    }

    pub fn right(self) -> i64 {
        crate::held(self.x + self.width)
    }

    pub fn bottom(self) -> i64 {
        crate::held(self.y + self.height)
    }

    pub fn holds(self, column: i64, row: i64) -> bool {
        (self.x..self.right()).contains(&column) && (self.y..self.bottom()).contains(&row)
    }
}

/// "Cell, 64 bits: symbol 21 | foreground 8 | background 8 | modifiers 9 | 18 bits never touched."
pub struct Screen {
    pub columns: i64,
    pub rows: i64,
    pub cells: Vec<u64>,
    pub styles: Vec<u64>,
}

impl Screen {
    /// Changes the cells of the screen whose column and row satisfy `chosen`.
    fn change(&mut self, chosen: impl Fn(i64, i64) -> bool, change: impl Fn(u64) -> u64) {
        for row in 0..self.rows {
            for column in 0..self.columns {
                if chosen(column, row) {
                    let cell = &mut self.cells[(row * self.columns + column) as usize];
                    *cell = change(*cell);
                }
            }
        }
    }

    pub fn symbol(&mut self, symbol: u64, chosen: impl Fn(i64, i64) -> bool) {
        self.change(chosen, |cell| symbol * (1 << 43) + cell % (1 << 43));
    }

    pub fn style(&mut self, number: usize, chosen: impl Fn(i64, i64) -> bool) {
        let style = self.styles[number];
        self.change(chosen, |cell| applied(style, cell));
    }
}

/// "Style, 64 bits: foreground given 1 | foreground 8 | background given 1 | background 8 | add 9 |
/// remove 9 | 28 zeros. Applying it sets the given colours, then sets the add bits, then clears
/// the remove bits."
fn applied(style: u64, cell: u64) -> u64 {
    let field = |word: u64, lowest: u32, bits: u32| word / 2u64.pow(lowest) % 2u64.pow(bits);
    let foreground = match field(style, 63, 1) {
        1 => field(style, 55, 8),
        _ => field(cell, 35, 8),
    };
    let background = match field(style, 54, 1) {
        1 => field(style, 46, 8),
        _ => field(cell, 27, 8),
    };
    let modifiers = (field(cell, 18, 9) | field(style, 37, 9)) & !field(style, 28, 9);
    let symbol = field(cell, 43, 21);
    let untouched = field(cell, 0, 18);
    (((symbol * 256 + foreground) * 256 + background) * 512 + modifiers) * (1 << 18) + untouched
}
