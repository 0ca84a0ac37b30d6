//! A stand-in for serde. `Serialize` is accepted and writes nothing: no answer is serialised here.

use proc_macro::TokenStream;

#[proc_macro_derive(Serialize, attributes(serde))]
pub fn serialize(_item: TokenStream) -> TokenStream {
    TokenStream::new()
}
