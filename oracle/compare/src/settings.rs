//! Converts the header's flat settings to the oracle's. Invalid numbers aren't passed here.

use oracle::{
    Alignment, AmbiguousWidth, Block, BorderSet, Borders, Effect, Notice, Padding, Rect, Shadow,
    TextSettings, TitlePosition, Wrap,
};

use crate::raw;

pub fn alignment(number: u8) -> Alignment {
    [Alignment::Left, Alignment::Center, Alignment::Right][usize::from(number)]
}

/// "narrow (1) or wide (2)"
pub fn ambiguous(settings: raw::Text) -> AmbiguousWidth {
    [AmbiguousWidth::Narrow, AmbiguousWidth::Wide][usize::from(settings.ambiguous) - 1]
}

pub fn rect(area: raw::Area) -> Rect {
    Rect::new(area.x, area.y, area.width, area.height)
}

pub fn wrap(settings: raw::Text) -> Wrap {
    match settings.wrap {
        0 => Wrap::Off { column: settings.column },
        number => Wrap::On { trim: number == 2 },
    }
}

pub fn text(settings: raw::Text) -> TextSettings {
    TextSettings {
        style: settings.style,
        text_style: settings.text_style,
        alignment: alignment(settings.alignment),
        wrap: wrap(settings),
        ambiguous: ambiguous(settings),
        scroll: settings.scroll,
    }
}

pub fn notice(block: raw::Block, settings: raw::Text) -> Notice {
    let TextSettings { style, text_style, alignment, wrap, ambiguous, scroll } = text(settings);
    let block = self::block(block);
    Notice { block, style, text_style, alignment, wrap, ambiguous, scroll }
}

pub fn block(flat: raw::Block) -> Block {
    Block {
        borders: Borders {
            top: flat.border_top == 1,
            right: flat.border_right == 1,
            bottom: flat.border_bottom == 1,
            left: flat.border_left == 1,
        },
        border_set: border_set(flat),
        border_style: flat.border_style,
        style: flat.style,
        padding: Padding {
            left: flat.padding_left,
            right: flat.padding_right,
            top: flat.padding_top,
            bottom: flat.padding_bottom,
        },
        titles_style: flat.titles_style,
        titles_alignment: alignment(flat.titles_alignment),
        titles_position: [TitlePosition::Top, TitlePosition::Bottom]
            [usize::from(flat.titles_position)],
        shadow: shadow(flat),
    }
}

fn border_set(flat: raw::Block) -> BorderSet {
    BorderSet {
        top_left: flat.top_left,
        top_right: flat.top_right,
        bottom_left: flat.bottom_left,
        bottom_right: flat.bottom_right,
        vertical_left: flat.vertical_left,
        vertical_right: flat.vertical_right,
        horizontal_top: flat.horizontal_top,
        horizontal_bottom: flat.horizontal_bottom,
    }
}

fn shadow(flat: raw::Block) -> Shadow {
    let effect = match flat.shadow {
        0 => return Shadow::Absent,
        1 => Effect::Overlay,
        _ => Effect::Symbol(flat.shadow_symbol),
    };
    Shadow::Present { effect, style: flat.shadow_style, x: flat.shadow_x, y: flat.shadow_y }
}
