//! Cells and styles, packed.

/// "symbol 21 | foreground 8 | background 8 | modifiers 9 | 18 bits never touched".
const SYMBOL: u32 = 43;
const FOREGROUND: u32 = 35;
const BACKGROUND: u32 = 27;
const MODIFIERS: u32 = 18;

/// "foreground given 1 | foreground 8 | background given 1 | background 8 | add 9 | remove 9 | 28
/// zeros".
pub mod style {
    pub fn foreground(style: u64) -> Option<u64> {
        (style >> 63 == 1).then_some(style >> 55 & 0xff)
    }

    pub fn background(style: u64) -> Option<u64> {
        (style >> 54 & 1 == 1).then_some(style >> 46 & 0xff)
    }

    pub fn add(style: u64) -> u64 {
        style >> 37 & 0x1ff
    }

    pub fn remove(style: u64) -> u64 {
        style >> 28 & 0x1ff
    }

    pub fn zeros(style: u64) -> u64 {
        style & 0xfff_ffff
    }
}

/// Returns the cell with another symbol.
pub fn set_symbol(symbol: u32, cell: u64) -> u64 {
    u64::from(symbol) << SYMBOL | cell & ((1 << SYMBOL) - 1)
}

/// Applies a style to a cell: sets the given colours, then sets the add bits, then clears the
/// remove bits.
pub fn set_style(style: u64, cell: u64) -> u64 {
    let symbol = cell >> SYMBOL;
    let foreground = style::foreground(style).unwrap_or(cell >> FOREGROUND & 0xff);
    let background = style::background(style).unwrap_or(cell >> BACKGROUND & 0xff);
    let modifiers = (cell >> MODIFIERS & 0x1ff | style::add(style)) & !style::remove(style);
    let untouched = cell & ((1 << MODIFIERS) - 1);
    symbol << SYMBOL
        | foreground << FOREGROUND
        | background << BACKGROUND
        | modifiers << MODIFIERS
        | untouched
}
