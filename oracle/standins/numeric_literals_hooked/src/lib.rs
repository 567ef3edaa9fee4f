//! The same attribute for the build over document 01's leaves. Besides replacing the literals it puts calls of
//! `crate::hooks` into the bodies it is given, so that rounds and rescalings are counted, the road is known and the two
//! added limits are kept by the Rust's own steps. The crate's text stays as it is; only the attribute, which is ours, sees the bodies.

mod calls;
#[path = "../../numeric_literals/src/literals.rs"]
mod literals;
mod loops;

use proc_macro::{Delimiter, TokenStream, TokenTree};

#[proc_macro_attribute]
pub fn replace_float_literals(form: TokenStream, item: TokenStream) -> TokenStream {
    hooked(literals::replaced(&form, item))
}

/// The function with hooks in its body, which is the brace at the function's own level.
fn hooked(item: TokenStream) -> TokenStream {
    let name = name_of(&item).unwrap_or_default();
    let guard = loops::code(guard(&name));
    let road = match name.as_str() {
        "cel_with_const" => None,
        "elliprf_rd_unchecked" => Some("Joint"),
        _ => Some("Duplication"),
    };
    item.into_iter()
        .map(|tree| match tree {
            TokenTree::Group(group) if group.delimiter() == Delimiter::Brace => {
                let inner = calls::hooked(&name, loops::hooked(road, group.stream()));
                literals::regrouped(&group, guard.clone().into_iter().chain(inner).collect())
            }
            other => other,
        })
        .collect()
}

/// What notes that an inner part of an entry is open. RF and RD in one loop are a part of RG's.
fn guard(name: &str) -> &'static str {
    match name {
        "elliprj_unchecked" => "let _call = crate::hooks::RjCall::enter(); let _part = crate::hooks::Part::enter();",
        "elliprc_unchecked" | "elliprf_unchecked" | "elliprd_unchecked" | "elliprg_unchecked" | "cel_with_const" => {
            "let _part = crate::hooks::Part::enter();"
        }
        _ => "",
    }
}

/// The word after `fn`.
fn name_of(item: &TokenStream) -> Option<String> {
    let mut words = item.clone().into_iter();
    words.find(|tree| tree.to_string() == "fn")?;
    words.next().map(|tree| tree.to_string())
}
