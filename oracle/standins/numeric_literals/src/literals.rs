//! Every float literal of an item becomes the attribute's form, with the literal put for the word `literal`.

use proc_macro::{Delimiter, Group, Literal, TokenStream, TokenTree};

pub fn replaced(form: &TokenStream, item: TokenStream) -> TokenStream {
    item.into_iter().map(|tree| replaced_tree(form, tree)).collect()
}

fn replaced_tree(form: &TokenStream, tree: TokenTree) -> TokenTree {
    match tree {
        TokenTree::Group(group) => regrouped(&group, replaced(form, group.stream())),
        TokenTree::Literal(literal) if is_float(&literal) => {
            TokenTree::Group(Group::new(Delimiter::None, filled(form, &literal)))
        }
        other => other,
    }
}

/// The form with the literal in its place.
fn filled(form: &TokenStream, literal: &Literal) -> TokenStream {
    form.clone()
        .into_iter()
        .map(|tree| match tree {
            TokenTree::Ident(word) if word.to_string() == "literal" => TokenTree::Literal(literal.clone()),
            TokenTree::Group(group) => regrouped(&group, filled(&group.stream(), literal)),
            other => other,
        })
        .collect()
}

pub fn regrouped(group: &Group, stream: TokenStream) -> TokenTree {
    let mut fresh = Group::new(group.delimiter(), stream);
    fresh.set_span(group.span());
    TokenTree::Group(fresh)
}

/// A number with a point or an exponent. (A text begins with a quote; the files have no hexadecimal.)
fn is_float(literal: &Literal) -> bool {
    let text = literal.to_string();
    text.starts_with(|c: char| c.is_ascii_digit()) && text.contains(['.', 'e'])
}
