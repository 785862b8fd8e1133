//! The sides and corners of a block.

use crate::block::Block;
use crate::buffer::{Ink, Screen, paint_area, style_at};
use crate::layout::Rect;

/// Draws the sides, then the corners, of a nonempty rectangle.
pub fn render_borders(
    screen: Screen,
    cells: &mut [u64],
    styles: &[u64],
    block: &Block,
    area: Rect,
) {
    let (on, set) = (block.borders, &block.border_set);
    let (last_column, last_row) = (area.right() - 1, area.bottom() - 1);
    let column = |x| Rect { x, width: 1, ..area };
    let row = |y| Rect { y, height: 1, ..area };
    let corner = |x, y| Rect { x, y, width: 1, height: 1 };
    let edges = [
        (on.left, column(area.x), set.vertical_left),
        (on.top, row(area.y), set.horizontal_top),
        (on.right, column(last_column), set.vertical_right),
        (on.bottom, row(last_row), set.horizontal_bottom),
        (on.right && on.bottom, corner(last_column, last_row), set.bottom_right),
        (on.right && on.top, corner(last_column, area.y), set.top_right),
        (on.left && on.bottom, corner(area.x, last_row), set.bottom_left),
        (on.left && on.top, corner(area.x, area.y), set.top_left),
    ];
    let style = style_at(styles, block.border_style);
    for (present, part, symbol) in edges {
        if present {
            paint_area(screen, cells, part, Ink::Both(symbol, style));
        }
    }
}
