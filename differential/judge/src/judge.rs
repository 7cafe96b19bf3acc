//! Runs the Rust on a tree and takes its answer down.

use std::{collections::BTreeMap, slice};

use dt_tools_diagnostic::{Diagnostic, Span as RustSpan};
use dt_tools_lowering::{
    check, database, lower,
    lowering::Label,
    mir::{Mir, MirCell32, MirCellList, MirDefinition, MirDefinitionValue, MirPhandleTarget, MirValue},
    preprocess::PreprocessedText,
};
use rustc_hash::FxHashMap;

use crate::{
    answer::{Answer, Binding, Cell, Definition, Diagnosis, Extension, Query, Target, Text, Value},
    codes::code_of,
    crate_tree::CrateTree,
    tree::Span,
};

/// The Rust's answer to a tree, and to queries for the paths that `paths` picks from it.
pub fn judge(tree: &CrateTree, paths: impl FnOnce(&Answer) -> Vec<Text>) -> (Answer, Vec<Query>) {
    let db = database(tree.root.clone());
    let lowered = lower(&db);
    let mir = lowered.mir(&db);

    let answer = Answer {
        definitions: mir.definitions.iter().map(definition).collect(),
        extensions: mir
            .unresolved_extensions
            .iter()
            .map(|extension| Extension {
                target: target(&extension.target),
                body: extension.body.iter().map(definition).collect(),
                span: span(&extension.provenance),
                name_span: span(&extension.phandle_span),
            })
            .collect(),
        bindings: bindings(lowered.labels(&db)),
        lowering: lowered.diagnostics(&db).iter().map(|diagnostic| diagnosis(tree, diagnostic)).collect(),
        post: post_checks(tree, check(&db, lowered)),
    };
    let text = |path: &Text| String::from_utf8(path.clone()).expect("the Rust's texts are UTF-8");
    let queries = paths(&answer).into_iter().map(|path| query(mir, &text(&path), path)).collect();
    (answer, queries)
}

/// Bindings as made: each label record binds once, and the walk of the tree is the order of lowering. The
/// Rust's map has no order of labels, but one of each label's own bindings, which is kept as it is.
fn bindings(map: &FxHashMap<String, Vec<Label>>) -> Vec<Binding> {
    let mut made: Vec<(u32, &str)> = Vec::new();
    let mut left: BTreeMap<&str, slice::Iter<Label>> = BTreeMap::new();
    for (label, own) in map {
        made.extend(own.iter().map(|binding| (binding.span.text_range.origin, label.as_str())));
        left.insert(label, own.iter());
    }
    made.sort_unstable();
    let next = |(_, label): (u32, &str)| {
        let binding = left.get_mut(label)?.next()?;
        let path = binding.path.as_bytes().to_vec();
        Some(Binding { label: label.as_bytes().to_vec(), path, span: span(&binding.span) })
    };
    made.into_iter().filter_map(next).collect()
}

/// The Rust goes through labels as its hash map has them; 01 by first remaining binding.
fn post_checks(tree: &CrateTree, mut found: Vec<Diagnostic<PreprocessedText>>) -> Vec<Diagnosis> {
    let labels = found.iter().take_while(|diagnostic| !diagnostic.span.span_labels.is_empty()).count();
    found[..labels].sort_by_key(|diagnostic| diagnostic.span.span_labels[0].span.text_range.origin);
    found.iter().map(|diagnostic| diagnosis(tree, diagnostic)).collect()
}

fn diagnosis(tree: &CrateTree, diagnostic: &Diagnostic<PreprocessedText>) -> Diagnosis {
    let at = diagnostic.span.primary_spans[0];
    let (code, text) = match tree.codes.get(&at.text_range.origin) {
        Some(code) => (*code, ""),
        None => code_of(&diagnostic.msg),
    };
    Diagnosis {
        code,
        text: text.as_bytes().to_vec(),
        span: span(&at),
        earlier: diagnostic.span.span_labels.first().map_or((0, 0), |label| span(&label.span)),
    }
}

fn definition(from: &MirDefinition) -> Definition {
    let mut definition = Definition {
        path: from.path.as_bytes().to_vec(),
        span: span(&from.provenance),
        name_span: span(&from.name_span),
        ..Definition::default()
    };
    definition.kind = match &from.value {
        MirDefinitionValue::Node(data) => {
            definition.omit = data.omit_if_no_ref;
            definition.labels = data.labels.iter().map(|label| label.as_bytes().to_vec()).collect();
            1
        }
        MirDefinitionValue::Property(data) => {
            definition.values = data.values.iter().map(value).collect();
            2
        }
        MirDefinitionValue::DeletedNode => 3,
        MirDefinitionValue::DeletedProperty => 4,
        MirDefinitionValue::V1Directive => 5,
        MirDefinitionValue::PluginDirective => 6,
    };
    definition
}

fn value(from: &MirValue) -> Value {
    let number = |number: u64| Cell::Number(number);
    match from {
        MirValue::String(text) => Value::String(text.as_bytes().to_vec()),
        MirValue::Bytestring(bytes) => Value::Bytes(bytes.clone()),
        MirValue::Phandle(to) => Value::Reference(target(to)),
        MirValue::CellList(list) => {
            let cells = match list {
                MirCellList::Bits8(cells) => cells.iter().map(|cell| number((*cell).into())).collect(),
                MirCellList::Bits16(cells) => cells.iter().map(|cell| number((*cell).into())).collect(),
                MirCellList::Bits64(cells) => cells.iter().map(|cell| number(*cell)).collect(),
                MirCellList::Bits32(cells) => cells
                    .iter()
                    .map(|cell| match cell {
                        MirCell32::Number(value) => number((*value).into()),
                        MirCell32::Phandle(to) => Cell::Reference(target(to)),
                    })
                    .collect(),
            };
            Value::Cells(list.bits().into(), cells)
        }
    }
}

fn target(from: &MirPhandleTarget) -> Target {
    let (form, label, path) = match from {
        MirPhandleTarget::Label(label) => (1, label.as_str(), ""),
        MirPhandleTarget::LabelPath { label, path } => (2, label.as_str(), path.as_str()),
        MirPhandleTarget::Path(path) => (3, "", path.as_str()),
    };
    Target { form, label: label.as_bytes().to_vec(), path: path.as_bytes().to_vec() }
}

fn span(from: &RustSpan<PreprocessedText>) -> Span {
    (from.text_range.start as u32, from.text_range.end as u32)
}

/// What the queries answer for a path that the Rust has as `text`.
pub fn query(mir: &Mir, text: &str, path: Text) -> Query {
    Query {
        live: mir.iter_live_defs_under(text).map(|definition| place(mir, definition)).collect(),
        history: mir.history(text).map(|definition| place(mir, definition)).collect(),
        contains: mir.contains_node(text),
        path,
    }
}

/// The place of a definition in the main log.
fn place(mir: &Mir, definition: &MirDefinition) -> usize {
    let from_start = std::ptr::from_ref(definition).addr() - mir.definitions.as_ptr().addr();
    from_start / size_of::<MirDefinition>()
}
