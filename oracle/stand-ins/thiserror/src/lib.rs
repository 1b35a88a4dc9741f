//! Stand-in for the crate thiserror: the derive is accepted and adds nothing (the oracle reads the
//! error itself, not its text for people).

use proc_macro::TokenStream;

#[proc_macro_derive(Error, attributes(error))]
pub fn error(_: TokenStream) -> TokenStream {
    TokenStream::new()
}
