//! 01's slips, and faults in the order and the life of what is kept.

use super::{By, Fault, lower, ours};
use crate::{
    answer::{Answer, Binding, Value},
    by_01::{paths::under, queries::live, rows, written},
    output,
    records::{self, Records},
    tree::{self, Place, Rec, Span, walk},
};

pub static FAULTS: [Fault; 9] = [
    ("slip: /ab is taken for a child of /a", By::Rust, |records, words, bytes| {
        rewritten(records, words, bytes, |answer, _| {
            let deleted = answer.definitions.iter().filter(|made| made.kind == 3);
            let deleted: Vec<_> = deleted.map(|made| made.path.clone()).collect();
            let begins =
                |path: &[u8]| deleted.iter().any(|above| path.starts_with(above) && !under(path, above));
            answer.bindings.retain(|binding| !begins(&binding.path));
        })
    }),
    ("slip: a label's every binding is removed", By::Rust, |records, words, bytes| {
        rewritten(records, words, bytes, |answer, _| {
            let labels: Vec<_> = unbound(answer).into_iter().map(|(label, _)| label).collect();
            answer.bindings.retain(|binding| !labels.contains(&binding.label));
        })
    }),
    ("slip: an extension's body is taken for an overlay", By::Rust, |records, words, bytes| {
        rewritten(records, words, bytes, |answer, top| {
            let spans = nested_references(top, false);
            answer.lowering.retain(|found| !matches!(found.code, 3 | 4) || !spans.contains(&found.span));
        })
    }),
    ("slip: a cell list is lost for one bad cell", By::Rust, |records, words, bytes| {
        rewritten(records, words, bytes, lose_lists)
    }),
    ("bindings of nodes below a deleted one stay", By::Rust, |records, words, bytes| {
        rewritten(records, words, bytes, keep_below)
    }),
    ("pairs: bindings of nodes below a deleted one stay", By::Pairs, |records, words, bytes| {
        rewritten(records, words, bytes, keep_below)
    }),
    ("bindings in another order", By::Rust, |records, words, bytes| {
        rewritten(records, words, bytes, |answer, _| answer.bindings.reverse())
    }),
    ("extensions in another order", By::Rust, |records, words, bytes| {
        rewritten(records, words, bytes, |answer, _| answer.extensions.reverse())
    }),
    ("pairs: a diagnostic less for each deletion", By::Pairs, |records, words, bytes| {
        rewritten(records, words, bytes, |answer, _| {
            let deleted = answer.definitions.iter().filter(|made| made.kind == 3).count();
            answer.lowering.truncate(answer.lowering.len().saturating_sub(deleted));
        })
    }),
];

/// Changes the log that was written, and writes it again.
pub fn rewritten(
    records: &Records,
    words: &mut [u32],
    bytes: &mut [u8],
    change: fn(&mut Answer, &[Rec]),
) -> (u32, u32) {
    let answer = lower(records, words, bytes);
    if answer.0 == 0 && rows::refusal(records).is_none() {
        let output::Output { answer: mut log, records: made, bytes: used, .. } =
            output::read(words, bytes).expect("a written log");
        change(&mut log, &records::read(records));
        words.fill(0);
        bytes.fill(0);
        written::write(&log, &records.starts, (made, used), words, bytes);
    }
    answer
}

/// The labels of live nodes that the main log's deletions unbind, with the nodes' paths.
fn unbound(answer: &Answer) -> Vec<(Vec<u8>, Vec<u8>)> {
    let log = &answer.definitions;
    let mut found = Vec::new();
    for (place, _) in log.iter().enumerate().filter(|(_, made)| made.kind == 3) {
        for node in live(&log[..place], &log[place].path) {
            let path = &log[node].path;
            found.extend(log[node].labels.iter().map(|label| (label.clone(), path.clone())));
        }
    }
    found
}

/// Binds again what a deletion of a node above unbound, as far as there is room.
fn keep_below(answer: &mut Answer, _: &[Rec]) {
    let deleted: Vec<_> =
        answer.definitions.iter().filter(|made| made.kind == 3).map(|made| &made.path).collect();
    let below = unbound(answer).into_iter().filter(|(_, path)| !deleted.contains(&path));
    let again: Vec<_> = below.map(|(label, path)| Binding { label, path, span: (0, 0) }).collect();
    answer.bindings.extend(again);
}

/// The spans of references by which nodes stand in the bodies of others that do.
fn nested_references(items: &[Rec], inside: bool) -> Vec<Span> {
    let mut found = Vec::new();
    for item in items {
        let reference = item.first(tree::REFERENCE);
        found.extend(reference.filter(|_| inside).map(|reference| reference.span));
        found.extend(nested_references(&item.more, inside || reference.is_some()));
    }
    found
}

/// Loses each cell list that has fewer cells than the description's.
fn lose_lists(answer: &mut Answer, top: &[Rec]) {
    let mut short = Vec::new();
    walk(top, Place::TopItem, 1, &mut |rec, _, _| {
        if rec.kind == tree::PROPERTY {
            let cells =
                rec.more.iter().filter(|value| value.kind == tree::CELL_LIST).map(|list| list.child.len());
            short.push((rec.span, cells.max().unwrap_or(0)));
        }
    });
    for property in answer.definitions.iter_mut().filter(|made| made.kind == 2) {
        let most = short.iter().find(|(span, _)| *span == property.span).map_or(0, |(_, most)| *most);
        property.values.retain(|value| !matches!(value, Value::Cells(_, cells) if cells.len() < most));
    }
}

/// A live list in which deleted definitions stay.
pub fn deleted_live(words: &[u32], bytes: &[u8], base: &[u8], list: &mut [u32]) -> (u32, u32) {
    let answer = (ours().queries.live)(words, bytes, base, list);
    if answer.0 != 0 {
        return answer;
    }
    let mut found = Vec::new();
    let mut number = words[1];
    while number != 0 {
        let record = &words[number as usize * output::RECORD..][..output::RECORD];
        let path = &bytes[record[2] as usize..][..record[3] as usize];
        if matches!(record[0], 1 | 2) && under(path, base) {
            found.insert(0, number);
        }
        number = record[1];
    }
    let count = found.len().min(list.len());
    list[..count].copy_from_slice(&found[..count]);
    (0, count as u32)
}
