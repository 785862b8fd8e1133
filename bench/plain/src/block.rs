//! A block's settings and its inner area.

use crate::layout::Rect;
use crate::refuse;
use crate::text::{Alignment, TitlePosition, head};

#[derive(Clone, Copy)]
pub struct Borders {
    pub top: bool,
    pub right: bool,
    pub bottom: bool,
    pub left: bool,
}

#[derive(Clone, Copy)]
pub struct BorderSet {
    pub top_left: u32,
    pub top_right: u32,
    pub bottom_left: u32,
    pub bottom_right: u32,
    pub vertical_left: u32,
    pub vertical_right: u32,
    pub horizontal_top: u32,
    pub horizontal_bottom: u32,
}

#[derive(Clone, Copy)]
pub struct Padding {
    pub left: u16,
    pub right: u16,
    pub top: u16,
    pub bottom: u16,
}

/// What a shadow's cells get after its style: nothing, or a symbol.
#[derive(Clone, Copy)]
pub enum Effect {
    Overlay,
    Symbol(u32),
}

#[derive(Clone, Copy)]
pub struct Shadow {
    pub effect: Effect,
    pub style: u8,
    pub x: i32,
    pub y: i32,
}

#[derive(Clone, Copy)]
pub struct Block {
    pub borders: Borders,
    pub border_set: BorderSet,
    pub border_style: u8,
    pub style: u8,
    pub padding: Padding,
    pub titles_style: u8,
    pub titles_alignment: Alignment,
    pub titles_position: TitlePosition,
    pub shadow: Option<Shadow>,
}

impl Block {
    /// Checks cause 6 for the settings.
    pub fn style_numbers_wrong(&self, count: usize) -> bool {
        refuse::style_numbers_wrong(count, &[self.border_style, self.style, self.titles_style])
            || self.shadow.is_some_and(|shadow| refuse::style_numbers_wrong(count, &[shadow.style]))
    }

    /// Checks cause 7, including sides that aren't drawn.
    pub fn symbols_wrong(&self) -> bool {
        let set = &self.border_set;
        refuse::symbols_wrong(&[
            set.top_left,
            set.top_right,
            set.bottom_left,
            set.bottom_right,
            set.vertical_left,
            set.vertical_right,
            set.horizontal_top,
            set.horizontal_bottom,
        ]) || match self.shadow {
            Some(Shadow { effect: Effect::Symbol(symbol), .. }) => refuse::symbols_wrong(&[symbol]),
            _ => false,
        }
    }

    fn has_title_at_position(&self, titles: &[u32], position: TitlePosition) -> bool {
        titles.iter().any(|&record| {
            head::is_head(record)
                && head::resolve_position(record, self.titles_position) == position
        })
    }

    /// Returns the inner area of a rectangle.
    pub fn inner_area(&self, titles: &[u32], area: Rect) -> Rect {
        let (borders, padding) = (self.borders, self.padding);
        let top = borders.top || self.has_title_at_position(titles, TitlePosition::Top);
        let bottom = borders.bottom || self.has_title_at_position(titles, TitlePosition::Bottom);
        Rect {
            x: inner_start(borders.left, area.x, area.right(), padding.left),
            y: inner_start(top, area.y, area.bottom(), padding.top),
            width: inner_size(area.width, borders.left, borders.right, padding.left, padding.right),
            height: inner_size(area.height, top, bottom, padding.top, padding.bottom),
        }
    }
}

fn inner_start(present: bool, place: u16, end: u16, padding: u16) -> u16 {
    let start = if present { place.saturating_add(1).min(end) } else { place };
    start.saturating_add(padding)
}

fn inner_size(size: u16, before: bool, after: bool, padding: u16, padding_after: u16) -> u16 {
    size.saturating_sub(before.into())
        .saturating_sub(after.into())
        .saturating_sub(padding.saturating_add(padding_after))
}
