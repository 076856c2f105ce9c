//! Derives that write nothing: no rule of the event program encodes a value.

use proc_macro::TokenStream;

#[proc_macro_derive(Serialize)]
pub fn serialize(_: TokenStream) -> TokenStream {
    TokenStream::new()
}

#[proc_macro_derive(Deserialize)]
pub fn deserialize(_: TokenStream) -> TokenStream {
    TokenStream::new()
}

#[proc_macro_derive(SchemaWrite)]
pub fn schema_write(_: TokenStream) -> TokenStream {
    TokenStream::new()
}

#[proc_macro_derive(SchemaRead)]
pub fn schema_read(_: TokenStream) -> TokenStream {
    TokenStream::new()
}

#[proc_macro_derive(GetSize)]
pub fn get_size(_: TokenStream) -> TokenStream {
    TokenStream::new()
}
