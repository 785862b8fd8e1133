//! Styles, their colours and their modifiers.
//!
//! Document 01, 'Packed fields': "Style, 64 bits: foreground given 1 | foreground 8 | background
//! given 1 | background 8 | add 9 | remove 9 | 28 zeros. Applying it sets the given colours, then
//! sets the add bits, then clears the remove bits." `Cell::set_style` applies a style.

/// A colour. Document 01's colours are 8-bit numbers, which is `Indexed`.
///
/// The other two are used by `Dimmed` in block/shadow.rs, a custom shadow filter, which document 01
/// leaves out: no cell of the oracle ever has them.
#[derive(Debug, Clone, Copy, PartialEq, Eq, Hash)]
pub enum Color {
    Indexed(u8),
    Rgb(u8, u8, u8),
    Black,
}

/// The nine modifier bits.
#[derive(Debug, Default, Clone, Copy, PartialEq, Eq, Hash)]
pub struct Modifier(u16);

impl Modifier {
    /// Used by the same left-out filter.
    pub const DIM: Self = Self(1 << 1);

    const ALL: u16 = 0b1_1111_1111;

    /// Returns the modifiers in the lowest nine bits of a word.
    pub const fn from_low_bits(word: u64) -> Self {
        Self(word as u16 & Self::ALL)
    }

    pub const fn bits(self) -> u16 {
        self.0
    }

    /// Sets the bits of `other`.
    pub const fn insert(&mut self, other: Self) {
        self.0 |= other.0;
    }

    /// Clears the bits of `other`.
    pub const fn remove(&mut self, other: Self) {
        self.0 &= !other.0;
    }
}

/// Changes to a cell's colours and modifiers.
#[derive(Debug, Default, Clone, Copy, PartialEq, Eq, Hash)]
pub struct Style {
    pub fg: Option<Color>,
    pub bg: Option<Color>,
    pub add_modifier: Modifier,
    pub sub_modifier: Modifier,
}

impl Style {
    /// Returns a style that changes nothing.
    pub const fn new() -> Self {
        Self { fg: None, bg: None, add_modifier: Modifier(0), sub_modifier: Modifier(0) }
    }

    /// Unpacks a style.
    pub fn from_packed(word: u64) -> Self {
        let color = |given: u32, lowest: u32| {
            (word >> given & 1 == 1).then_some(Color::Indexed((word >> lowest) as u8))
        };
        Self {
            fg: color(63, 55),
            bg: color(54, 46),
            add_modifier: Modifier::from_low_bits(word >> 37),
            sub_modifier: Modifier::from_low_bits(word >> 28),
        }
    }

    /// Returns the style equivalent to applying this one and then `other`.
    ///
    /// For each modifier bit, `other` decides if it adds or removes the bit, else this style does.
    /// Removals are applied last, so a bit that `other` adds must be taken out of this style's
    /// removals, while a bit that `other` removes may stay in this style's additions. A bit that
    /// one style both adds and removes is cleared, alone or combined.
    #[must_use]
    pub fn patch(self, other: Self) -> Self {
        let mut add_modifier = self.add_modifier;
        add_modifier.insert(other.add_modifier);
        let mut sub_modifier = self.sub_modifier;
        sub_modifier.remove(other.add_modifier);
        sub_modifier.insert(other.sub_modifier);
        Self { fg: other.fg.or(self.fg), bg: other.bg.or(self.bg), add_modifier, sub_modifier }
    }
}

/// A widget that has a style.
pub trait Styled {
    type Item;

    fn style(&self) -> Style;

    fn set_style<S: Into<Style>>(self, style: S) -> Self::Item;
}
