//! 'Inner area and frame', except titles.

use oracle::{Block, Effect, Shadow, TitlePosition};

use crate::screen::{Area, Screen};
use crate::{Line, held, titles};

pub fn has_title(block: &Block, titles: &[Line], position: TitlePosition) -> bool {
    titles.iter().any(|title| titles::position(block, title) == position)
}

pub fn inner(block: &Block, titles: &[Line], area: Area) -> Area {
    let borders = block.borders;
    let top = borders.top || has_title(block, titles, TitlePosition::Top);
    let bottom = borders.bottom || has_title(block, titles, TitlePosition::Bottom);
    let [left_padding, right_padding, top_padding, bottom_padding] =
        [block.padding.left, block.padding.right, block.padding.top, block.padding.bottom]
            .map(i64::from);
    let mut inner = area;
    if borders.left {
        inner.x = held(area.x + 1).min(area.right());
        inner.width = held(inner.width - 1);
    }
    if top {
        inner.y = held(area.y + 1).min(area.bottom());
        inner.height = held(inner.height - 1);
    }
    if borders.right {
        inner.width = held(inner.width - 1);
    }
    if bottom {
        inner.height = held(inner.height - 1);
    }
    inner.x = held(inner.x + left_padding);
    inner.y = held(inner.y + top_padding);
    inner.width = held(inner.width - held(left_padding + right_padding));
    inner.height = held(inner.height - held(top_padding + bottom_padding));
    inner
}

/// "Drawing meets area and screen first (larger x and y, smaller right and bottom)."
pub fn met(area: Area, screen: &Screen) -> Area {
    Area {
        width: (area.right().min(screen.columns) - area.x).max(0),
        height: (area.bottom().min(screen.rows) - area.y).max(0),
        ..area
    }
}

/// Draws the frame over the met area, from the block style to the shadow.
pub fn draw(screen: &mut Screen, block: &Block, titles: &[Line], area: Area) {
    if area.is_empty() {
        return;
    }
    screen.style(usize::from(block.style), |x, y| area.holds(x, y));
    borders(screen, block, area);
    titles::draw(screen, block, titles, area);
    shadow(screen, block, area);
}

/// "Sides left, top, right, bottom, corners (bottom right, top right, bottom left, top left, each
/// where both borders stand)."
fn borders(screen: &mut Screen, block: &Block, area: Area) {
    let (b, set) = (block.borders, block.border_set);
    let on_left = move |x: i64, _: i64| x == area.x;
    let on_top = move |_: i64, y: i64| y == area.y;
    let on_right = move |x: i64, _: i64| x == area.right() - 1;
    let on_bottom = move |_: i64, y: i64| y == area.bottom() - 1;
    type Place<'a> = &'a dyn Fn(i64, i64) -> bool;
    let parts: [(bool, u32, Place, Place); 8] = [
        (b.left, set.vertical_left, &on_left, &on_left),
        (b.top, set.horizontal_top, &on_top, &on_top),
        (b.right, set.vertical_right, &on_right, &on_right),
        (b.bottom, set.horizontal_bottom, &on_bottom, &on_bottom),
        (b.bottom && b.right, set.bottom_right, &on_bottom, &on_right),
        (b.top && b.right, set.top_right, &on_top, &on_right),
        (b.bottom && b.left, set.bottom_left, &on_bottom, &on_left),
        (b.top && b.left, set.top_left, &on_top, &on_left),
    ];
    for (stands, symbol, one, other) in parts {
        if stands {
            let chosen = |x, y| area.holds(x, y) && one(x, y) && other(x, y);
            screen.symbol(u64::from(symbol), chosen);
            screen.style(usize::from(block.border_style), chosen);
        }
    }
}

/// "X moves by a signed 32-bit offset, held from 0 to 65,535 less width; y likewise; the block's
/// own cells are spared."
fn shadow(screen: &mut Screen, block: &Block, area: Area) {
    let Shadow::Present { effect, style, x, y } = block.shadow else {
        return;
    };
    let moved = Area {
        x: (area.x + i64::from(x)).clamp(0, 65_535 - area.width),
        y: (area.y + i64::from(y)).clamp(0, 65_535 - area.height),
        ..area
    };
    let chosen = |x, y| moved.holds(x, y) && !area.holds(x, y);
    screen.style(usize::from(style), chosen);
    if let Effect::Symbol(symbol) = effect {
        screen.symbol(u64::from(symbol), chosen);
    }
}
