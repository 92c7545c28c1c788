//! Stand-in for the crate `derive_where`: the traits are derived as `derive` does it, and a field marked to be skipped is not.
//!
//! `derive` also asks for the traits of the type parameter itself; the stand-in for `Types` has them.

use proc_macro::{Delimiter, Group, TokenStream, TokenTree};

#[proc_macro_attribute]
pub fn derive_where(traits: TokenStream, item: TokenStream) -> TokenStream {
    let mut all: TokenStream = format!("#[derive({traits})]").parse().expect("an attribute");
    all.extend(unmarked(item));
    all
}

/// The tokens without `#[derive_where(..)]` at any depth.
fn unmarked(tokens: TokenStream) -> TokenStream {
    let mut all: Vec<TokenTree> = Vec::new();
    for token in tokens {
        let TokenTree::Group(group) = token else {
            all.push(token);
            continue;
        };
        if is_mark(&group) {
            all.pop();
            continue;
        }
        let mut inner = Group::new(group.delimiter(), unmarked(group.stream()));
        inner.set_span(group.span());
        all.push(inner.into());
    }
    all.into_iter().collect()
}

/// Whether these are an attribute's brackets, with `#` before them.
fn is_mark(group: &Group) -> bool {
    group.delimiter() == Delimiter::Bracket && group.stream().into_iter().next().is_some_and(|first| first.to_string() == "derive_where")
}
