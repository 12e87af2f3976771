//! The derives that the supplied text asks of serde and thiserror. Each finds
//! the name of its type in the token stream and writes one small impl.

use proc_macro::{TokenStream, TokenTree};

/// The identifier after `struct` or `enum`. Attributes are groups, so no
/// keyword inside them is seen; the derived types have no generics.
fn type_name(item: TokenStream) -> String {
    let mut keyword = false;
    for token in item {
        if let TokenTree::Ident(word) = token {
            let word = word.to_string();
            if keyword {
                return word;
            }
            keyword = word == "struct" || word == "enum";
        }
    }
    panic!("no type in a derive")
}

#[proc_macro_derive(Serialize, attributes(serde))]
pub fn serialize(item: TokenStream) -> TokenStream {
    let name = type_name(item);
    format!(
        "impl ::serde::Serialize for {name} {{
            fn serialize<S: ::serde::Serializer>(&self, _to: S) -> Result<S::Ok, S::Error> {{
                unimplemented!()
            }}
        }}"
    )
    .parse()
    .unwrap()
}

#[proc_macro_derive(Deserialize, attributes(serde))]
pub fn deserialize(item: TokenStream) -> TokenStream {
    let name = type_name(item);
    format!(
        "impl<'de> ::serde::Deserialize<'de> for {name} {{
            fn deserialize<D: ::serde::Deserializer<'de>>(_from: D) -> Result<Self, D::Error> {{
                unimplemented!()
            }}
        }}"
    )
    .parse()
    .unwrap()
}

#[proc_macro_derive(Error, attributes(error))]
pub fn error(item: TokenStream) -> TokenStream {
    let name = type_name(item);
    format!(
        "impl ::std::fmt::Display for {name} {{
            fn fmt(&self, f: &mut ::std::fmt::Formatter<'_>) -> ::std::fmt::Result {{
                write!(f, \"{{self:?}}\")
            }}
        }}
        impl ::std::error::Error for {name} {{}}"
    )
    .parse()
    .unwrap()
}
