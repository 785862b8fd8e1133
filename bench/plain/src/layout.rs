//! Rectangles of cells.

#[derive(Debug, Clone, Copy, PartialEq, Eq)]
pub struct Rect {
    pub x: u16,
    pub y: u16,
    pub width: u16,
    pub height: u16,
}

impl Rect {
    /// Returns the rectangle from `left` up to `right` and from `top` up to `bottom`.
    pub fn between(left: u16, top: u16, right: u16, bottom: u16) -> Self {
        let (width, height) = (right.saturating_sub(left), bottom.saturating_sub(top));
        Self { x: left, y: top, width, height }
    }

    pub fn right(self) -> u16 {
        self.x.saturating_add(self.width)
    }

    pub fn bottom(self) -> u16 {
        self.y.saturating_add(self.height)
    }

    pub fn intersection(self, other: Self) -> Self {
        Self::between(
            self.x.max(other.x),
            self.y.max(other.y),
            self.right().min(other.right()),
            self.bottom().min(other.bottom()),
        )
    }

    pub fn is_empty(self) -> bool {
        self.width == 0 || self.height == 0
    }

    /// Returns the rectangle moved by a signed offset, clamped to 0 to 65,535 less its size.
    pub fn offset(self, x: i32, y: i32) -> Self {
        let moved = |place: u16, by: i32, size: u16| {
            (i64::from(place) + i64::from(by)).clamp(0, i64::from(u16::MAX - size)) as u16
        };
        Self { x: moved(self.x, x, self.width), y: moved(self.y, y, self.height), ..self }
    }
}
