//! A stand-in for the crate of this name, with as much of it as the files of the original need.

use proc_macro::{TokenStream, TokenTree};

/// Derives `Display` and `Error`. The message is the name of the type, since nothing here compares messages.
#[proc_macro_derive(Error, attributes(error, from, source))]
pub fn derive_error(item: TokenStream) -> TokenStream {
    let name = name_of(item);
    format!(
        "impl ::std::fmt::Display for {name} {{
             fn fmt(&self, f: &mut ::std::fmt::Formatter<'_>) -> ::std::fmt::Result {{
                 f.write_str(\"{name}\")
             }}
         }}
         impl ::std::error::Error for {name} {{}}"
    )
    .parse()
    .expect("the derived text is Rust")
}

/// The name after `struct` or `enum`.
fn name_of(item: TokenStream) -> String {
    let mut tokens = item.into_iter();
    tokens
        .by_ref()
        .find(|token| is_word(token, "struct") || is_word(token, "enum"))
        .and_then(|_| tokens.next())
        .expect("a struct or an enum has a name")
        .to_string()
}

fn is_word(token: &TokenTree, word: &str) -> bool {
    matches!(token, TokenTree::Ident(ident) if ident.to_string() == word)
}
