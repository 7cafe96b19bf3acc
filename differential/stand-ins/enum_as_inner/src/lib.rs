//! Stand-in for `enum_as_inner`: the derive adds nothing, as docs/src calls none of its methods on
//! the types that carry it.

use proc_macro::TokenStream;

#[proc_macro_derive(EnumAsInner)]
pub fn enum_as_inner(_: TokenStream) -> TokenStream {
    TokenStream::new()
}
