//! Stand-in for `strum`: two derives that block.rs and borders.rs use on their enums.
//!
//! They print and parse an enum's name. Nothing in document 01 prints or parses a name, so both
//! derive nothing.

use proc_macro::TokenStream;

/// Derives nothing: no name is ever printed.
#[proc_macro_derive(Display)]
pub fn display(_item: TokenStream) -> TokenStream {
    TokenStream::new()
}

/// Derives nothing: no name is ever parsed.
#[proc_macro_derive(EnumString)]
pub fn enum_string(_item: TokenStream) -> TokenStream {
    TokenStream::new()
}
