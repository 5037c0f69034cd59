//! Stand-in for `thiserror`: a derive that makes an enum an error whose text
//! is its `Debug` form. The texts of `#[error(..)]` are passed over, and
//! `#[from]` makes nothing: no compared answer carries a text.

use proc_macro::{TokenStream, TokenTree};

#[proc_macro_derive(Error, attributes(error, from))]
pub fn error(item: TokenStream) -> TokenStream {
    let mut words = item.into_iter().filter_map(|token| match token {
        TokenTree::Ident(word) => Some(word.to_string()),
        _ => None,
    });
    words.find(|word| word == "enum").expect("an enum");
    let name = words.next().expect("the enum's name");
    format!(
        "impl ::std::fmt::Display for {name} {{
            fn fmt(&self, f: &mut ::std::fmt::Formatter<'_>) -> ::std::fmt::Result {{
                ::std::fmt::Debug::fmt(self, f)
            }}
        }}
        impl ::std::error::Error for {name} {{}}"
    )
    .parse()
    .expect("two impls")
}
