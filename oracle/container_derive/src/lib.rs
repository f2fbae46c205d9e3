//! Supplied: `#[derive(U16Id)]`, as id_types.rs describes it: `new`, `raw`, `to_le_bytes` and `Display` for a
//! struct with one `u16`.

use proc_macro::{TokenStream, TokenTree};

#[proc_macro_derive(U16Id)]
pub fn u16_id(item: TokenStream) -> TokenStream {
    let mut words = item.into_iter();
    while let Some(word) = words.next() {
        let is_struct = matches!(&word, TokenTree::Ident(i) if i.to_string() == "struct");
        if is_struct {
            break;
        }
    }
    let name = words.next().expect("U16Id: a struct with a name").to_string();
    format!(
        "impl {name} {{
            pub const fn new(raw: u16) -> Self {{ Self(raw) }}
            pub const fn raw(self) -> u16 {{ self.0 }}
            pub const fn to_le_bytes(self) -> [u8; 2] {{ self.0.to_le_bytes() }}
        }}
        impl ::core::fmt::Display for {name} {{
            fn fmt(&self, f: &mut ::core::fmt::Formatter<'_>) -> ::core::fmt::Result {{
                write!(f, \"{{}}\", self.0)
            }}
        }}"
    )
    .parse()
    .expect("U16Id: the text is Rust")
}
