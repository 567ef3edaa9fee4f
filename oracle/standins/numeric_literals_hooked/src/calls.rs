//! Hooks at calls, from which road and rescalings (document 02, 2026-04 and 2026-09) are read. Each has its own shape in the Rust:
//!
//! - a rescaling: a call of the function itself with arguments that are divided;
//! - the reduction of a negative p: a call of itself with others;
//! - the whole answer handed to another function: `return other_unchecked(..);` and nothing after it;
//! - the expansion near RJ's zero: `return Some(..)` of the function that has it;
//! - cel's loop, if what comes out of it is finite: `return Ok(ans)`. What stands after it is the Rust's own tests.
//!
//! A word that is called becomes a block that says so and is the word.

use crate::literals::regrouped;
use crate::loops::code;
use proc_macro::{Delimiter, Group, TokenStream, TokenTree};

pub fn hooked(own: &str, stream: TokenStream) -> TokenStream {
    let trees: Vec<TokenTree> = stream.into_iter().collect();
    let mut out = TokenStream::new();
    for (i, tree) in trees.iter().enumerate() {
        match tree {
            TokenTree::Group(group) => out.extend([regrouped(group, hooked(own, group.stream()))]),
            TokenTree::Ident(word) => match hook(own, &word.to_string(), &trees, i) {
                Some(hook) => {
                    let block = code(&format!("{{ crate::hooks::{hook}(); {word} }}"));
                    out.extend([TokenTree::Group(Group::new(Delimiter::Parenthesis, block))]);
                }
                None => out.extend([tree.clone()]),
            },
            other => out.extend([other.clone()]),
        }
    }
    out
}

fn hook(own: &str, word: &str, trees: &[TokenTree], i: usize) -> Option<&'static str> {
    let Some(TokenTree::Group(arguments)) = trees.get(i + 1) else {
        return None;
    };
    if arguments.delimiter() != Delimiter::Parenthesis || i > 0 && is(&trees[i - 1], "fn") {
        return None;
    }
    let returned = i > 0 && is(&trees[i - 1], "return");
    let alone = trees.get(i + 2).is_some_and(|after| is(after, ";"));
    if word == own {
        let divided = arguments.stream().into_iter().any(|tree| is(&tree, "/"));
        return Some(if divided { "rescales" } else { "reduces" });
    }
    if word.ends_with("_unchecked") && returned && alone {
        return Some("hands_over");
    }
    if word == "Ok" && returned && own == "cel_with_const" && arguments.stream().to_string() == "ans" {
        return Some("stands");
    }
    (word == "Some" && returned && own == "elliprj_pv_near_zero").then_some("expands")
}

fn is(tree: &TokenTree, text: &str) -> bool {
    tree.to_string() == text
}
