//! Stand-in for `salsa`: the attribute `tracked`.
//!
//! On a function it changes nothing. On a struct it makes a small value that can be copied, whose
//! fields are kept in the database, with `new` and one reader for each field.

use proc_macro::{Delimiter, TokenStream, TokenTree};

#[proc_macro_attribute]
pub fn tracked(_: TokenStream, item: TokenStream) -> TokenStream {
    let trees: Vec<TokenTree> = item.clone().into_iter().collect();
    let Some(at) = trees.iter().position(|tree| is(tree, "struct")) else {
        return item;
    };
    let name = trees[at + 1].to_string();
    let body = trees
        .iter()
        .find_map(|tree| match tree {
            TokenTree::Group(group) if group.delimiter() == Delimiter::Brace => Some(group.stream()),
            _ => None,
        })
        .expect("a struct with named fields");

    let (mut kept, mut given, mut named, mut readers) = <(String, String, String, String)>::default();
    for (field, kind) in fields(body) {
        kept += &format!("{field}: {kind},");
        given += &format!("{field}: {kind},");
        named += &format!("{field},");
        readers += &format!(
            "pub fn {field}(self, _: &dyn crate::db::BaseDb) -> &'db {kind} {{ &self.kept.{field} }}"
        );
    }
    format!(
        "struct Kept{name} {{ {kept} }}
         #[derive(Clone, Copy)]
         pub struct {name}<'db> {{ kept: &'db Kept{name} }}
         impl<'db> {name}<'db> {{
             pub fn new(db: &'db dyn crate::db::BaseDb, {given}) -> Self {{
                 Self {{ kept: db.kept().keep(Kept{name} {{ {named} }}) }}
             }}
             {readers}
         }}"
    )
    .parse()
    .expect("the struct's stand-in is Rust")
}

/// The names and types of a struct's fields, their attributes and visibility left out.
fn fields(body: TokenStream) -> Vec<(String, String)> {
    let mut found = Vec::new();
    let mut trees = body.into_iter().peekable();
    while let Some(tree) = trees.next() {
        if is(&tree, "#") {
            trees.next();
        } else if !is(&tree, "pub") {
            let mut kind = TokenStream::new();
            let mut depth = 0i32;
            trees.next();
            for part in trees.by_ref() {
                depth += i32::from(is(&part, "<")) - i32::from(is(&part, ">"));
                if depth == 0 && is(&part, ",") {
                    break;
                }
                kind.extend([part]);
            }
            found.push((tree.to_string(), kind.to_string()));
        }
    }
    found
}

fn is(tree: &TokenTree, text: &str) -> bool {
    !matches!(tree, TokenTree::Group(_)) && tree.to_string() == text
}
