//! The derives of serde, jomini and thiserror, as far as the compared Rust needs them to build.
//!
//! No save is read or written here, so nothing that reads or writes one is derived: what the
//! files call is there, and fails if it is ever reached.

use proc_macro::{TokenStream, TokenTree};

/// serde's `Serialize`: nothing is serialized.
#[proc_macro_derive(Serialize, attributes(serde))]
pub fn serialize(_item: TokenStream) -> TokenStream {
    TokenStream::new()
}

/// serde's `Deserialize`: nothing is deserialized.
#[proc_macro_derive(Deserialize, attributes(serde))]
pub fn deserialize(_item: TokenStream) -> TokenStream {
    TokenStream::new()
}

/// jomini's `JominiDeserialize`. models.rs calls `deserialize` of a type that derives this.
#[proc_macro_derive(JominiDeserialize, attributes(jomini))]
pub fn jomini_deserialize(item: TokenStream) -> TokenStream {
    let name = name_of(item);
    generated(&format!(
        "impl<'de> ::serde::Deserialize<'de> for {name} {{
            fn deserialize<D: ::serde::Deserializer<'de>>(_: D) -> Result<Self, D::Error> {{
                unimplemented!(\"no save is read\")
            }}
        }}"
    ))
}

/// thiserror's `Error`. An error's words are its debug form; they are never compared.
#[proc_macro_derive(Error, attributes(error, from, source))]
pub fn error(item: TokenStream) -> TokenStream {
    let name = name_of(item);
    generated(&format!(
        "impl ::std::fmt::Display for {name} {{
            fn fmt(&self, f: &mut ::std::fmt::Formatter<'_>) -> ::std::fmt::Result {{
                write!(f, \"{{self:?}}\")
            }}
        }}
        impl ::std::error::Error for {name} {{}}"
    ))
}

/// The name behind `struct` or `enum`; types with parameters are not asked for.
fn name_of(item: TokenStream) -> String {
    let mut tokens = item.into_iter().skip_while(|token| !opens_type(token)).skip(1);
    match tokens.next() {
        Some(TokenTree::Ident(name)) => name.to_string(),
        _ => panic!("a derive stands on a struct or an enum"),
    }
}

fn opens_type(token: &TokenTree) -> bool {
    matches!(token, TokenTree::Ident(word) if ["struct", "enum"].contains(&word.to_string().as_str()))
}

fn generated(code: &str) -> TokenStream {
    code.parse().expect("the generated code is Rust")
}
