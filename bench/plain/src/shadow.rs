//! A block's shadow.

use crate::block::{Effect, Shadow};
use crate::buffer::{Ink, Screen, paint_area, style_at};
use crate::layout::Rect;

/// Paints the cells of a rectangle outside another one inside the screen: above it, below it, left
/// of it and right of it.
fn paint_outside(screen: Screen, cells: &mut [u64], spared: Rect, area: Rect, ink: Ink) {
    let (right, bottom) = (area.right(), area.bottom());
    let (first_row, last_row) = (area.y.max(spared.y), bottom.min(spared.bottom()));
    let parts = [
        Rect::between(area.x, area.y, right, bottom.min(spared.y)),
        Rect::between(area.x, area.y.max(spared.bottom()), right, bottom),
        Rect::between(area.x, first_row, right.min(spared.x), last_row),
        Rect::between(area.x.max(spared.right()), first_row, right, last_row),
    ];
    for part in parts {
        paint_area(screen, cells, part, ink);
    }
}

/// Draws the shadow of a block whose area on the screen is `base`.
pub fn render_shadow(
    screen: Screen,
    cells: &mut [u64],
    styles: &[u64],
    base: Rect,
    shadow: Shadow,
) {
    let area = base.offset(shadow.x, shadow.y).intersection(screen.area());
    if area.is_empty() {
        return;
    }
    let style = style_at(styles, shadow.style);
    paint_outside(screen, cells, base, area, Ink::Style(style));
    if let Effect::Symbol(symbol) = shadow.effect {
        paint_outside(screen, cells, base, area, Ink::Symbol(symbol));
    }
}
