//! A description with short paths as the Rust can answer it: each reference of a node or deletion that is taken short is
//! written in full. All that follows from a look-up is then the Rust's; only 29, and post checks of what is short, are not.

use std::collections::BTreeMap;

use crate::{
    answer::{Answer, Diagnosis},
    by_02::short_paths::{By, Found, Look, SEVERAL},
    generate::Case,
    tree::Rec,
    trees::{Judged, by_the_rust},
};

/// The code of a path that is not found.
const NOT_FOUND: u32 = 4;

/// What differs between the Rust's answer in full and that of 01's and 02's sentences to a description that is set aside.
pub fn difference(judged: &Judged) -> Option<&'static str> {
    let Judged { case, by_01, .. } = judged;
    let taken = |look: &Look| match &look.found {
        Found::Short(full) => Some((look.reference?, full.clone())),
        _ => None,
    };
    let full: BTreeMap<usize, Vec<u8>> = by_01.looks.iter().filter_map(taken).collect();
    let top = in_full(&case.top, &full);
    let case = Case { look: case.look, ..Case::known(top, case.records.level) };
    let Answer { definitions, extensions, bindings, lowering, post } = by_the_rust(&case, 0).0;
    let other = |found: &Diagnosis| found.code != NOT_FOUND;
    let rest = |found: &[Diagnosis]| found.iter().filter(|found| other(found)).cloned().collect::<Vec<_>>();
    let due = &by_01.answer;
    let parts = [
        ("definitions", definitions == due.definitions),
        ("extensions", extensions == due.extensions),
        ("bindings", bindings == due.bindings),
        ("lowering's diagnostics", lowering == without_29(&due.lowering)),
        ("the post checks' other diagnostics", rest(&post) == rest(&without_29(&due.post))),
        ("the paths that post checks do not find", not_found(&post) == not_exact(&by_01.looks)),
    ];
    parts.into_iter().find(|(_, same)| !same).map(|(part, _)| part)
}

/// A chain with the references at these addresses written in full.
fn in_full(chain: &[Rec], full: &BTreeMap<usize, Vec<u8>>) -> Vec<Rec> {
    let one = |rec: &Rec| {
        let (child, more) = (in_full(&rec.child, full), in_full(&rec.more, full));
        match full.get(&rec.address()) {
            Some(path) => Rec { w: 1, text: [b"&{", &path[..], b"}"].concat(), child, more, ..*rec },
            None => Rec { text: rec.text.clone(), child, more, ..*rec },
        }
    };
    chain.iter().map(one).collect()
}

/// Diagnostics with 4 for 29.
fn without_29(found: &[Diagnosis]) -> Vec<Diagnosis> {
    let code = |code: u32| if code == SEVERAL { NOT_FOUND } else { code };
    found.iter().map(|found| Diagnosis { code: code(found.code), ..found.clone() }).collect()
}

fn not_found(post: &[Diagnosis]) -> Vec<&[u8]> {
    post.iter().filter(|found| found.code == NOT_FOUND).map(|found| &found.text[..]).collect()
}

/// The paths of post checks that no node has just so.
fn not_exact(looks: &[Look]) -> Vec<&[u8]> {
    let checks = looks.iter().filter(|look| look.by == By::PostCheck && look.found != Found::Exact);
    checks.map(|look| &look.path[..]).collect()
}
