//! Stands in for the crate `numeric_literals`: its one attribute that the crate's files use.

mod literals;

use proc_macro::TokenStream;

#[proc_macro_attribute]
pub fn replace_float_literals(form: TokenStream, item: TokenStream) -> TokenStream {
    literals::replaced(&form, item)
}
