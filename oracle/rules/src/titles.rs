//! Titles: 'Inner area and frame', with the rules of `render_left_titles`, `render_center_titles`
//! and `render_right_titles` to which it refers.

use oracle::{Alignment, Block, TitlePosition};

use crate::screen::{Area, Screen};
use crate::{Line, width};

/// "In a title 0 top, 1 bottom, 2 the block's."
pub fn position(block: &Block, title: &Line) -> TitlePosition {
    match title.position {
        0 => TitlePosition::Top,
        1 => TitlePosition::Bottom,
        _ => block.titles_position,
    }
}

/// "Alignment 3 in a title means none given."
fn given(title: &Line) -> Option<Alignment> {
    [Some(Alignment::Left), Some(Alignment::Center), Some(Alignment::Right), None]
        [title.alignment as usize]
}

pub fn draw(screen: &mut Screen, block: &Block, titles: &[Line], area: Area) {
    let left = i64::from(block.borders.left);
    let right = i64::from(block.borders.right);
    let rows = [(TitlePosition::Top, area.y), (TitlePosition::Bottom, area.bottom() - 1)];
    for (place, y) in rows {
        let row =
            Area { x: area.x + left, y, width: (area.width - left - right).max(0), height: 1 };
        let chosen = |alignment| -> Vec<&Line> {
            let here = titles.iter().filter(|title| position(block, title) == place);
            here.filter(|title| given(title).unwrap_or(block.titles_alignment) == alignment)
                .collect()
        };
        let style = usize::from(block.titles_style);
        left_titles(screen, style, &chosen(Alignment::Left), row);
        center_titles(screen, style, &chosen(Alignment::Center), row);
        right_titles(screen, style, &chosen(Alignment::Right), row);
    }
}

fn left_titles(screen: &mut Screen, style: usize, titles: &[&Line], mut row: Area) {
    for title in titles {
        if row.is_empty() {
            break;
        }
        let t = width(&title.glyphs);
        draw_title(screen, style, title, Area { width: t.min(row.width), ..row }, given(title));
        row.x += t + 1;
        row.width = (row.width - t - 1).max(0);
    }
}

fn right_titles(screen: &mut Screen, style: usize, titles: &[&Line], mut row: Area) {
    for title in titles.iter().rev() {
        if row.is_empty() {
            break;
        }
        let t = width(&title.glyphs);
        let x = (row.x + row.width - t).max(row.x);
        let area = Area { x, width: t.min(row.width), ..row };
        draw_title(screen, style, title, area, given(title));
        row.width = (row.width - t - 1).max(0);
    }
}

fn center_titles(screen: &mut Screen, style: usize, titles: &[&Line], mut row: Area) {
    let widths = titles.iter().map(|title| width(&title.glyphs) + 1);
    let total = (widths.sum::<i64>() - 1).max(0);
    if total <= row.width {
        row.x += (row.width - total) / 2;
        for title in titles {
            let t = width(&title.glyphs);
            draw_title(screen, style, title, Area { width: t, ..row }, given(title));
            row.x += t + 1;
        }
        return;
    }
    let mut offset = (total - row.width) / 2;
    for title in titles {
        if row.is_empty() {
            break;
        }
        let shown = (row.width.min(width(&title.glyphs)) - offset).max(0);
        let alignment = if offset > 0 { Alignment::Right } else { Alignment::Left };
        draw_title(screen, style, title, Area { width: shown, ..row }, Some(alignment));
        offset = (offset - shown - 1).max(0);
        row.x += shown + 1;
        row.width = (row.width - shown - 1).max(0);
    }
}

/// "A title line of width t in w columns: t ≤ w starts at 0, w - t if right; t > w hides the first
/// t - w columns if right, else none. Glyphs starting in hidden columns or of width 0 aren't drawn;
/// drawing stops at the first that overruns w."
fn draw_title(
    screen: &mut Screen,
    style: usize,
    title: &Line,
    area: Area,
    alignment: Option<Alignment>,
) {
    screen.style(style, |x, y| area.holds(x, y));
    let (t, w) = (width(&title.glyphs), area.width);
    // Right: starts at w - t; if that is negative, that many columns are hidden.
    let from = if alignment == Some(Alignment::Right) { w - t } else { 0 };
    for (place, glyph) in title.glyphs.iter().enumerate() {
        let start = from + width(&title.glyphs[..place]);
        if start + glyph.width > w {
            break;
        }
        if start >= 0 && glyph.width > 0 {
            let chosen = |x, y| (x, y) == (area.x + start, area.y);
            screen.symbol(glyph.symbol, chosen);
            screen.style(glyph.style, chosen);
        }
    }
}
