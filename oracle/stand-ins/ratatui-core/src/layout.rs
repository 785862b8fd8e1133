//! Rectangles, positions, offsets and alignments.
//!
//! Document 01, 'Inner area and frame': "Right and bottom are x + width and y + height, held at
//! 65,535"; "Drawing meets area and screen first (larger x and y, smaller right and bottom)"; and
//! on the shadow: "x moves by a signed 32-bit offset, held from 0 to 65,535 less width; y
//! likewise".

/// Alignment of a line in its row.
#[derive(Debug, Default, Clone, Copy, PartialEq, Eq, Hash)]
pub enum Alignment {
    #[default]
    Left,
    Center,
    Right,
}

/// A column and a row.
#[derive(Debug, Default, Clone, Copy, PartialEq, Eq, Hash)]
pub struct Position {
    pub x: u16,
    pub y: u16,
}

impl Position {
    pub const ORIGIN: Self = Self::new(0, 0);

    pub const fn new(x: u16, y: u16) -> Self {
        Self { x, y }
    }
}

impl From<(u16, u16)> for Position {
    fn from((x, y): (u16, u16)) -> Self {
        Self { x, y }
    }
}

/// A signed offset.
#[derive(Debug, Default, Clone, Copy, PartialEq, Eq, Hash)]
pub struct Offset {
    pub x: i32,
    pub y: i32,
}

impl Offset {
    pub const fn new(x: i32, y: i32) -> Self {
        Self { x, y }
    }
}

/// A rectangle of cells.
#[derive(Debug, Default, Clone, Copy, PartialEq, Eq, Hash)]
pub struct Rect {
    pub x: u16,
    pub y: u16,
    pub width: u16,
    pub height: u16,
}

impl Rect {
    pub const fn new(x: u16, y: u16, width: u16, height: u16) -> Self {
        Self { x, y, width, height }
    }

    pub const fn left(self) -> u16 {
        self.x
    }

    pub const fn top(self) -> u16 {
        self.y
    }

    /// Returns one past the last column, saturating at 65,535.
    pub const fn right(self) -> u16 {
        self.x.saturating_add(self.width)
    }

    /// Returns one past the last row, saturating at 65,535.
    pub const fn bottom(self) -> u16 {
        self.y.saturating_add(self.height)
    }

    pub const fn is_empty(self) -> bool {
        self.width == 0 || self.height == 0
    }

    pub const fn contains(self, position: Position) -> bool {
        self.left() <= position.x
            && position.x < self.right()
            && self.top() <= position.y
            && position.y < self.bottom()
    }

    /// Returns the intersection of two rectangles: larger x and y, smaller right and bottom. If
    /// they have no cell in common, its width or height is 0.
    pub fn intersection(self, other: Self) -> Self {
        let x = self.x.max(other.x);
        let y = self.y.max(other.y);
        Self {
            x,
            y,
            width: self.right().min(other.right()).saturating_sub(x),
            height: self.bottom().min(other.bottom()).saturating_sub(y),
        }
    }

    /// Returns the rectangle moved by an offset, with the same size.
    pub fn offset(self, offset: Offset) -> Self {
        Self {
            x: moved(self.x, offset.x, u16::MAX - self.width),
            y: moved(self.y, offset.y, u16::MAX - self.height),
            ..self
        }
    }
}

/// Returns `from` + `by`, clamped to 0 to `most`.
fn moved(from: u16, by: i32, most: u16) -> u16 {
    let to = (i64::from(from) + i64::from(by)).clamp(0, i64::from(most));
    u16::try_from(to).expect("held in 16 bits")
}
