//! Stand-in for serde's derives: `expr.rs` and `stmt.rs` carry them, and
//! nothing here reads or writes what they would generate.

use proc_macro::TokenStream;

/// Accepts `#[derive(Serialize)]` with its `#[serde(..)]` attributes, and
/// adds nothing.
#[proc_macro_derive(Serialize, attributes(serde))]
pub fn serialize(_item: TokenStream) -> TokenStream {
    TokenStream::new()
}

/// Accepts `#[derive(Deserialize)]` with its `#[serde(..)]` attributes,
/// and adds nothing.
#[proc_macro_derive(Deserialize, attributes(serde))]
pub fn deserialize(_item: TokenStream) -> TokenStream {
    TokenStream::new()
}
