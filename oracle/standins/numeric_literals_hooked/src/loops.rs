//! Hooks in loops. Document 01, "Rounds", counts three kinds of passes, document 02 a fourth, and each has its own shape in the
//! Rust:
//!
//! - duplication and joint passes begun: a `for` without `continue`; a hook at the head of its body;
//! - RF's AGM passes that replaced the means: a `for` whose `continue` follows the replacing; a hook before `continue`;
//! - RD's and RG's AGM passes: a `while`, whose body always replaces the means; a hook at its head, which also keeps
//!   the added cap and so has a counter of its own, declared before the `while`;
//! - cel's passes begun: a `for` with a `continue`, but with a hook at the head of its body.
//!
//! A loop that is begun is also the road that is taken: every `for` begins a pass, a `while` may not. Not so in cel, whose road
//! hangs on what comes out of the loop (`calls.rs`).

use crate::literals::regrouped;
use proc_macro::{Delimiter, Group, TokenStream, TokenTree};

#[derive(Clone, Copy)]
enum Loop {
    For,
    While,
}

/// `road` is that of a `for` without `continue`; nothing in cel.
pub fn hooked(road: Option<&str>, stream: TokenStream) -> TokenStream {
    let mut out = TokenStream::new();
    // The loop whose head has been read and whose body, the next brace, has not.
    let mut head = None;
    for tree in stream {
        match tree {
            TokenTree::Ident(word) => {
                match word.to_string().as_str() {
                    "for" => head = Some(Loop::For),
                    "while" => {
                        head = Some(Loop::While);
                        out.extend(code("let mut agm = crate::hooks::Agm::new();"));
                    }
                    _ => {}
                }
                out.extend([TokenTree::Ident(word)]);
            }
            TokenTree::Group(group) => out.extend([hooked_group(road, &mut head, &group)]),
            other => out.extend([other]),
        }
    }
    out
}

fn hooked_group(road: Option<&str>, head: &mut Option<Loop>, group: &Group) -> TokenTree {
    let inner = hooked(road, group.stream());
    let kind = if group.delimiter() == Delimiter::Brace { head.take() } else { None };
    let body = match (kind, road) {
        (None, _) => inner,
        (Some(Loop::While), _) => headed("agm.pass();", inner),
        (Some(Loop::For), None) => headed("crate::hooks::pass();", inner),
        (Some(Loop::For), _) if continues(&inner) => headed(&took("Agm"), before_continue(inner)),
        (Some(Loop::For), Some(road)) => headed(&format!("crate::hooks::pass(); {}", took(road)), inner),
    };
    regrouped(group, body)
}

fn took(road: &str) -> String {
    format!("crate::hooks::takes(crate::hooks::Road::{road});")
}

fn headed(hook: &str, body: TokenStream) -> TokenStream {
    code(hook).into_iter().chain(body).collect()
}

fn is_continue(tree: &TokenTree) -> bool {
    matches!(tree, TokenTree::Ident(word) if word.to_string() == "continue")
}

fn continues(body: &TokenStream) -> bool {
    body.clone().into_iter().any(|tree| match tree {
        TokenTree::Group(group) => continues(&group.stream()),
        other => is_continue(&other),
    })
}

fn before_continue(body: TokenStream) -> TokenStream {
    let mut out = TokenStream::new();
    for tree in body {
        if is_continue(&tree) {
            out.extend(code("crate::hooks::pass();"));
        }
        match tree {
            TokenTree::Group(group) => out.extend([regrouped(&group, before_continue(group.stream()))]),
            other => out.extend([other]),
        }
    }
    out
}

pub fn code(text: &str) -> TokenStream {
    text.parse().expect("the hook is Rust")
}
