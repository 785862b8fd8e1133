//! Stand-in for `instability`: the attribute on `line_count` and `line_width`.
//!
//! The real one hides an item unless a feature is enabled. Document 01 requires both ("`line_count`
//! is 0 at width 0 ..", "`line_width` is the widest line .."), so here the item stays as written,
//! which is public.

use proc_macro::TokenStream;

/// Leaves the item as written.
#[proc_macro_attribute]
pub fn unstable(_arguments: TokenStream, item: TokenStream) -> TokenStream {
    item
}
