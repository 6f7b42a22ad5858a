//! Stands in for rustsbi's derive: `handle_ecall` hands every call to the
//! struct's field of type `Forward`.

use proc_macro::{TokenStream, TokenTree};

#[proc_macro_derive(RustSBI, attributes(rustsbi))]
pub fn rustsbi(item: TokenStream) -> TokenStream {
    let name = struct_name(item);
    format!(
        "impl ::rustsbi::RustSBI for {name} {{
            fn handle_ecall(
                &self,
                eid: usize,
                fid: usize,
                param: [usize; 6],
            ) -> ::rustsbi::SbiRet {{
                self.forward.forward(eid, fid, param)
            }}
        }}"
    )
    .parse()
    .unwrap()
}

/// The identifier after `struct`.
fn struct_name(item: TokenStream) -> String {
    let mut tokens = item.into_iter();
    while let Some(token) = tokens.next() {
        if matches!(&token, TokenTree::Ident(word) if word.to_string() == "struct") {
            return tokens.next().expect("a struct has a name").to_string();
        }
    }
    panic!("RustSBI is derived for structs")
}
