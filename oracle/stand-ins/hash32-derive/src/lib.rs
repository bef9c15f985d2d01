//! Stand-in for the crate `hash32-derive` 0.1: the derive exists and adds nothing, since the runs hash nothing.
use proc_macro::TokenStream;

#[proc_macro_derive(Hash32)]
pub fn hash32(_item: TokenStream) -> TokenStream {
    TokenStream::new()
}
