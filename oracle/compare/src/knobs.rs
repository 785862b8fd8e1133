//! The numbers of an input, each with a name, a getter and a setter.

use crate::input::Input;

pub struct Knob {
    pub name: &'static str,
    pub get: fn(&Input) -> i64,
    pub set: fn(&mut Input, i64),
}

macro_rules! knobs {
    ($($($field:ident).+),* $(,)?) => {
        &[$(Knob {
            name: stringify!($($field).+),
            get: |input| i64::from(input.$($field).+),
            set: |input, number| input.$($field).+ = number as _,
        }),*]
    };
}

pub const NUMBERS: &[Knob] = knobs![limit, trim];

pub const AREA: &[Knob] = knobs![area.x, area.y, area.width, area.height];

pub const SETTINGS: &[Knob] = knobs![
    settings.scroll,
    settings.column,
    settings.style,
    settings.text_style,
    settings.alignment,
    settings.wrap,
];

/// Apart from the other settings, as calls without those take it too.
pub const AMBIGUOUS: &[Knob] = knobs![settings.ambiguous];

pub const BLOCK: &[Knob] = knobs![
    block.border_top,
    block.border_right,
    block.border_bottom,
    block.border_left,
    block.border_style,
    block.style,
    block.padding_left,
    block.padding_right,
    block.padding_top,
    block.padding_bottom,
    block.titles_style,
    block.titles_alignment,
    block.titles_position,
    block.shadow,
    block.shadow_style,
    block.shadow_symbol,
    block.shadow_x,
    block.shadow_y,
];

/// The border symbols.
pub const SYMBOLS: &[Knob] = knobs![
    block.top_left,
    block.top_right,
    block.bottom_left,
    block.bottom_right,
    block.vertical_left,
    block.vertical_right,
    block.horizontal_top,
    block.horizontal_bottom,
];
