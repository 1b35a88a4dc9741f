//! Stand-in for the crate strum: the derives are accepted and add nothing (they serve the command
//! line of the original program).

use proc_macro::TokenStream;

#[proc_macro_derive(EnumString, attributes(strum))]
pub fn enum_string(_: TokenStream) -> TokenStream {
    TokenStream::new()
}

#[proc_macro_derive(EnumVariantNames, attributes(strum))]
pub fn enum_variant_names(_: TokenStream) -> TokenStream {
    TokenStream::new()
}

#[proc_macro_derive(IntoStaticStr, attributes(strum))]
pub fn into_static_str(_: TokenStream) -> TokenStream {
    TokenStream::new()
}
