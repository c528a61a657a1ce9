//! A stand-in for the crate of this name, with as much of it as the files of the original need: two derives, which produce
//! nothing, since nothing here reads a struct as bytes.

use proc_macro::TokenStream;

#[proc_macro_derive(Pod)]
pub fn derive_pod(_: TokenStream) -> TokenStream {
    TokenStream::new()
}

#[proc_macro_derive(Zeroable)]
pub fn derive_zeroable(_: TokenStream) -> TokenStream {
    TokenStream::new()
}
