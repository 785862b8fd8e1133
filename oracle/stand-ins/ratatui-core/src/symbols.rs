//! Symbols of borders and shadows.
//!
//! Document 01, 'Inner area and frame': "A border cell gets its symbol, then the border style".
//! Border and shadow symbols are numbers given by the caller (refusal 7 checks them), so the named
//! sets and shades below are empty: the oracle always gives a block all eight symbols.

/// The eight symbols of a border.
pub mod border {
    #[derive(Debug, Default, Clone, Copy, PartialEq, Eq, Hash)]
    pub struct Set<'a> {
        pub top_left: &'a str,
        pub top_right: &'a str,
        pub bottom_left: &'a str,
        pub bottom_right: &'a str,
        pub vertical_left: &'a str,
        pub vertical_right: &'a str,
        pub horizontal_top: &'a str,
        pub horizontal_bottom: &'a str,
    }

    const EMPTY: Set<'static> = Set {
        top_left: "",
        top_right: "",
        bottom_left: "",
        bottom_right: "",
        vertical_left: "",
        vertical_right: "",
        horizontal_top: "",
        horizontal_bottom: "",
    };

    pub const PLAIN: Set<'static> = EMPTY;
    pub const ROUNDED: Set<'static> = EMPTY;
    pub const DOUBLE: Set<'static> = EMPTY;
    pub const THICK: Set<'static> = EMPTY;
    pub const LIGHT_DOUBLE_DASHED: Set<'static> = EMPTY;
    pub const HEAVY_DOUBLE_DASHED: Set<'static> = EMPTY;
    pub const LIGHT_TRIPLE_DASHED: Set<'static> = EMPTY;
    pub const HEAVY_TRIPLE_DASHED: Set<'static> = EMPTY;
    pub const LIGHT_QUADRUPLE_DASHED: Set<'static> = EMPTY;
    pub const HEAVY_QUADRUPLE_DASHED: Set<'static> = EMPTY;
    pub const QUADRANT_INSIDE: Set<'static> = EMPTY;
    pub const QUADRANT_OUTSIDE: Set<'static> = EMPTY;
}

/// How a border symbol is merged with the one in the cell.
pub mod merge {
    /// Document 01: "Left out: .. merge strategies other than `Replace`".
    #[derive(Debug, Default, Clone, Copy, PartialEq, Eq, Hash)]
    pub enum MergeStrategy {
        #[default]
        Replace,
    }
}

/// The named shades of a shadow.
pub mod shade {
    pub const FULL: &str = "";
    pub const DARK: &str = "";
    pub const MEDIUM: &str = "";
    pub const LIGHT: &str = "";
}
