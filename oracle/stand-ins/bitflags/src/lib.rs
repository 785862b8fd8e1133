//! Stand-in for `bitflags`: the macro, with the methods that borders.rs and block.rs call.
//!
//! Document 01 has no flags; it names borders one by one ("a left border", "each where both borders
//! stand"). A set of flags is its bits, and `contains` checks all of the other's bits.

/// Defines a set of named flags from a struct-like description.
#[macro_export]
macro_rules! bitflags {
    (
        $(#[$attribute:meta])*
        $visibility:vis struct $Name:ident: $Bits:ty {
            $(
                $(#[$flag_attribute:meta])*
                const $FLAG:ident = $value:expr;
            )*
        }
    ) => {
        $(#[$attribute])*
        $visibility struct $Name($Bits);

        impl $Name {
            $(
                $(#[$flag_attribute])*
                pub const $FLAG: Self = Self($value);
            )*

            const NAMED: &'static [(&'static str, Self)] =
                &[$((stringify!($FLAG), Self::$FLAG)),*];

            /// Returns the set as a number.
            pub const fn bits(self) -> $Bits {
                self.0
            }

            /// Returns the empty set.
            pub const fn empty() -> Self {
                Self(0)
            }

            /// Whether no flag is set.
            pub const fn is_empty(self) -> bool {
                self.0 == 0
            }

            /// Whether every named flag is set.
            pub fn is_all(self) -> bool {
                Self::NAMED.iter().all(|(_, flag)| self.contains(*flag))
            }

            /// Whether the two sets have a flag in common.
            pub const fn intersects(self, other: Self) -> bool {
                self.0 & other.0 != 0
            }

            /// Whether every flag of `other` is set here.
            pub const fn contains(self, other: Self) -> bool {
                self.0 & other.0 == other.0
            }

            /// Returns the flags of either set.
            pub const fn union(self, other: Self) -> Self {
                Self(self.0 | other.0)
            }

            /// Returns the names of the flags that are set.
            pub fn iter_names(self) -> impl Iterator<Item = (&'static str, Self)> {
                Self::NAMED.iter().copied().filter(move |(_, flag)| self.contains(*flag))
            }
        }

        impl ::core::ops::BitOr for $Name {
            type Output = Self;

            fn bitor(self, other: Self) -> Self {
                self.union(other)
            }
        }
    };
}
