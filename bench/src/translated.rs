//! Converts the oracle's settings to those of the plain translation, which has its own types.

use oracle::{
    Alignment, AmbiguousWidth, Block, Effect, Rect, Shadow, TextSettings, TitlePosition, Wrap,
};
use plain::block;

pub fn rect(area: Rect) -> plain::Rect {
    plain::Rect { x: area.x, y: area.y, width: area.width, height: area.height }
}

pub fn text(settings: TextSettings) -> plain::TextSettings {
    plain::TextSettings {
        style: settings.style,
        text_style: settings.text_style,
        alignment: alignment(settings.alignment),
        wrap: match settings.wrap {
            Wrap::Off { column } => plain::Wrap::Off { column },
            Wrap::On { trim } => plain::Wrap::On { trim },
        },
        scroll: settings.scroll,
        ambiguous: ambiguous(settings.ambiguous),
    }
}

pub fn block(settings: Block) -> block::Block {
    let (on, set, padding) = (settings.borders, settings.border_set, settings.padding);
    block::Block {
        borders: block::Borders { top: on.top, right: on.right, bottom: on.bottom, left: on.left },
        border_set: block::BorderSet {
            top_left: set.top_left,
            top_right: set.top_right,
            bottom_left: set.bottom_left,
            bottom_right: set.bottom_right,
            vertical_left: set.vertical_left,
            vertical_right: set.vertical_right,
            horizontal_top: set.horizontal_top,
            horizontal_bottom: set.horizontal_bottom,
        },
        border_style: settings.border_style,
        style: settings.style,
        padding: block::Padding {
            left: padding.left,
            right: padding.right,
            top: padding.top,
            bottom: padding.bottom,
        },
        titles_style: settings.titles_style,
        titles_alignment: alignment(settings.titles_alignment),
        titles_position: match settings.titles_position {
            TitlePosition::Top => plain::TitlePosition::Top,
            TitlePosition::Bottom => plain::TitlePosition::Bottom,
        },
        shadow: shadow(settings.shadow),
    }
}

pub fn alignment(alignment: Alignment) -> plain::Alignment {
    match alignment {
        Alignment::Left => plain::Alignment::Left,
        Alignment::Center => plain::Alignment::Center,
        Alignment::Right => plain::Alignment::Right,
    }
}

pub fn ambiguous(ambiguous: AmbiguousWidth) -> plain::AmbiguousWidth {
    match ambiguous {
        AmbiguousWidth::Narrow => plain::AmbiguousWidth::Narrow,
        AmbiguousWidth::Wide => plain::AmbiguousWidth::Wide,
    }
}

/// Returns the header's number of the setting: the cells that an ambiguous glyph is read as.
pub fn ambiguous_number(ambiguous: AmbiguousWidth) -> u8 {
    self::ambiguous(ambiguous) as u8
}

fn shadow(shadow: Shadow) -> Option<block::Shadow> {
    let Shadow::Present { effect, style, x, y } = shadow else { return None };
    let effect = match effect {
        Effect::Overlay => block::Effect::Overlay,
        Effect::Symbol(symbol) => block::Effect::Symbol(symbol),
    };
    Some(block::Shadow { effect, style, x, y })
}
