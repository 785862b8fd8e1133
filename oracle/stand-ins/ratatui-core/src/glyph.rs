//! A glyph, and the symbol string that represents it in the Rust files.
//!
//! Document 01, 'Packed fields': "Glyph, 32 bits: 0 | symbol 21 | width 3 | whitespace 1 | style 6.
//! Each symbol is one grapheme; 32 is the blank symbol."
//!
//! The Rust files pass symbols as `&str` and never inspect them. Here a symbol string is sixteen
//! hexadecimal digits: the glyph's record, then its record number in its text. So width and
//! whitespace are read from the glyph's fields, and a composed line has the numbers of its records.

/// Length of every nonempty symbol string.
pub const SYMBOL_LENGTH: usize = 16;

/// A glyph's packed record and its record number.
#[derive(Debug, Clone, Copy, PartialEq, Eq)]
pub struct Glyph {
    pub record: u32,
    pub number: u32,
}

impl Glyph {
    /// Returns a glyph with only a symbol, for borders and shadows.
    pub const fn from_symbol(symbol: u32) -> Self {
        assert!(symbol < 1 << 21, "a symbol has 21 bits");
        Self { record: symbol << 10, number: 0 }
    }

    /// The symbol, 21 bits.
    pub const fn symbol(self) -> u32 {
        self.record >> 10 & 0x1f_ffff
    }

    /// The width in cells, 3 bits.
    pub const fn width(self) -> u16 {
        (self.record >> 7 & 0b111) as u16
    }

    /// The whitespace bit.
    pub const fn is_whitespace(self) -> bool {
        self.record >> 6 & 1 == 1
    }

    /// The number of the glyph's style, 6 bits.
    pub const fn style(self) -> u8 {
        (self.record & 0b11_1111) as u8
    }

    /// Returns the symbol string of this glyph.
    pub fn encode(self) -> String {
        let mut symbol = String::with_capacity(SYMBOL_LENGTH);
        self.append_to(&mut symbol);
        symbol
    }

    /// Appends the symbol string of this glyph.
    pub fn append_to(self, symbols: &mut String) {
        for number in [self.record, self.number] {
            let digits = (0..8).rev().map(|place| number >> (4 * place) & 15);
            symbols.extend(digits.filter_map(|digit| char::from_digit(digit, 16)));
        }
    }

    /// Returns the glyph of a symbol string. The empty string, which `LineTruncator` substitutes
    /// for a swallowed glyph, has none.
    ///
    /// # Panics
    ///
    /// If the string is neither empty nor from [`Glyph::encode`].
    pub fn decode(symbol: &str) -> Option<Self> {
        if symbol.is_empty() {
            return None;
        }
        assert!(symbol.len() == SYMBOL_LENGTH, "no symbol of ours: {symbol:?}");
        let digits = |part| u32::from_str_radix(part, 16).expect("hexadecimal digits");
        let (record, number) = symbol.split_at(SYMBOL_LENGTH / 2);
        Some(Self { record: digits(record), number: digits(number) })
    }
}
