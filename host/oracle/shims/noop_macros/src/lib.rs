//! Attribute and derive macros that do nothing. The code they would make isn't
//! reached by the stages that the oracle runs.
use proc_macro::TokenStream;

#[proc_macro_attribute]
pub fn instrument(_args: TokenStream, item: TokenStream) -> TokenStream {
    item
}

#[proc_macro_derive(Serialize, attributes(serde))]
pub fn serialize(_item: TokenStream) -> TokenStream {
    TokenStream::new()
}

#[proc_macro_derive(Deserialize, attributes(serde))]
pub fn deserialize(_item: TokenStream) -> TokenStream {
    TokenStream::new()
}

#[proc_macro_derive(Serialize_repr)]
pub fn serialize_repr(_item: TokenStream) -> TokenStream {
    TokenStream::new()
}

#[proc_macro_derive(Deserialize_repr)]
pub fn deserialize_repr(_item: TokenStream) -> TokenStream {
    TokenStream::new()
}

#[proc_macro_derive(IntoPrimitive)]
pub fn into_primitive(_item: TokenStream) -> TokenStream {
    TokenStream::new()
}

#[proc_macro_derive(TryFromPrimitive)]
pub fn try_from_primitive(_item: TokenStream) -> TokenStream {
    TokenStream::new()
}
