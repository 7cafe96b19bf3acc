//! Lowering, over the tree of 01's records.

use std::collections::BTreeMap;

use super::{expressions, numbers, paths::join, post, queries, values};
use crate::{
    answer::{Answer, Binding, Cell, Definition, Diagnosis, Extension, Target, Text, Value},
    by_02::{
        level_2,
        short_paths::{By, Found, Look, Rules, look_up},
    },
    records::UNSIGNED,
    tree::{self, Rec, Span},
};

/// What lowering gives, row 7's counts, which things came up how often, the expression cells that were
/// evaluated, with their widths, and the paths that were looked up.
#[derive(Default)]
pub struct Lowered {
    pub answer: Answer,
    pub records: u64,
    pub bytes: u64,
    pub events: BTreeMap<&'static str, u64>,
    pub cells: Vec<(u32, Rec)>,
    pub looks: Vec<Look>,
}

impl Lowered {
    /// Whether a look-up went by 02's second rule, taken or 29: docs/src answers such a description otherwise.
    pub fn is_short(&self) -> bool {
        self.looks.iter().any(Look::is_short)
    }
}

/// Things that lowering can meet; each is to come up.
pub const EVENTS: [&str; 33] = [
    "label found",
    "label and path found",
    "path found",
    "label not found",
    "label of a label and path not found",
    "label and path not found",
    "path not found",
    "label and path that is \"/\" by l//",
    "label found whose node is not live",
    "reference unreadable",
    "extension kept",
    "extension dropped",
    "extension dropped with its body",
    "nested extension kept",
    "nameless body dropped",
    "binding made in a body of its own",
    "binding removed by a deletion",
    "binding removed by a deletion in a body of its own",
    "binding left by a deletion of its label's other node",
    "node deleted by name",
    "node deleted by reference",
    "deletion of a node that is not there",
    "deletion by reference not found",
    "deletion by reference not found in an overlay",
    "property deleted",
    "property dropped for its name",
    "label twice on a node",
    "label with name and macro",
    "reference beside a name",
    "name that wins over a slash",
    "root by a slash beside a name that fails",
    "deletion of a node that is not there above live ones",
    "deletion by name where a short path would match",
];

/// A log in hand.
#[derive(Default)]
struct Log {
    definitions: Vec<Definition>,
    extensions: Vec<Extension>,
    /// How many bodies of their own lie around it.
    depth: u32,
}

/// Lowers a description's top items at a level and runs the post checks.
pub fn lower(top: &[Rec], level: u32) -> Lowered {
    lower_by(Rules::default(), top, level)
}

/// The same by other rules for finding nodes.
pub fn lower_by(rules: Rules, top: &[Rec], level: u32) -> Lowered {
    let mut state = State { level, rules, ..State::default() };
    let mut log = Log::default();
    state.made(1, &[]);
    for item in top {
        state.item(&mut log, b"", item);
    }
    let post = post::post_checks(&log.definitions, &state.bindings, rules, &mut state.looks);
    for diagnosis in &post {
        state.made(1, &[&diagnosis.text]);
    }
    Lowered {
        answer: Answer {
            definitions: log.definitions,
            extensions: log.extensions,
            bindings: state.bindings,
            lowering: state.diagnostics,
            post,
        },
        records: state.records,
        bytes: state.bytes,
        events: state.events,
        cells: state.cells,
        looks: state.looks,
    }
}

#[derive(Default)]
struct State {
    level: u32,
    rules: Rules,
    bindings: Vec<Binding>,
    diagnostics: Vec<Diagnosis>,
    records: u64,
    bytes: u64,
    events: BTreeMap<&'static str, u64>,
    cells: Vec<(u32, Rec)>,
    looks: Vec<Look>,
}

impl State {
    fn event(&mut self, event: &'static str) {
        debug_assert!(EVENTS.contains(&event), "{event}");
        *self.events.entry(event).or_default() += 1;
    }

    /// Counts records made and their texts.
    fn made(&mut self, records: u64, texts: &[&[u8]]) {
        self.records += records;
        self.bytes += texts.iter().map(|text| text.len() as u64).sum::<u64>();
    }

    fn report(&mut self, code: u32, text: &[u8], span: Span) {
        self.made(1, &[text]);
        self.diagnostics.push(Diagnosis { code, text: text.to_vec(), span, earlier: (0, 0) });
    }

    fn define(&mut self, log: &mut Log, definition: Definition) {
        self.made(1, &[&definition.path]);
        for label in &definition.labels {
            self.made(1, &[label]);
        }
        for value in &definition.values {
            match value {
                Value::String(text) | Value::Bytes(text) => self.made(1, &[text]),
                Value::Reference(target) => self.made(1, &[&target.label, &target.path]),
                Value::Cells(_, cells) => {
                    self.made(1, &[]);
                    for cell in cells {
                        match cell {
                            Cell::Number(_) => self.made(1, &[]),
                            Cell::Reference(target) => self.made(1, &[&target.label, &target.path]),
                        }
                    }
                }
            }
        }
        log.definitions.push(definition);
    }

    fn item(&mut self, log: &mut Log, parent: &[u8], item: &Rec) {
        match item.kind {
            tree::NODE => self.node(log, parent, item),
            tree::PROPERTY => self.property(log, parent, item),
            tree::DIRECTIVE => self.directive(log, parent, item),
            _ => self.report(1, b"", item.span),
        }
    }

    /// The first name below, else the first macro is reported.
    fn name(&mut self, rec: &Rec) -> Option<Text> {
        if let Some(name) = rec.first(tree::NAME) {
            return Some(name.text.clone());
        }
        if let Some(invocation) = rec.first(tree::MACRO) {
            self.report(10, &invocation.text, invocation.span);
        }
        None
    }

    /// The name with its unit address, if both are good.
    fn full_name(&mut self, rec: &Rec) -> Option<Text> {
        let name = self.name(rec);
        let unit = rec.first(tree::UNIT_ADDRESS).map(|unit| self.name(unit));
        match (name, unit) {
            (Some(name), None) => Some(name),
            (Some(name), Some(Some(unit))) => Some([&name[..], b"@", &unit].concat()),
            _ => None,
        }
    }

    /// What a reference names, if it can be read.
    fn reference(&mut self, reference: &Rec) -> Option<Target> {
        if let Some(invocation) = reference.first(tree::MACRO) {
            self.report(10, &invocation.text, invocation.span);
            return None;
        }
        if reference.w == 1 {
            return values::raw_reference(&reference.text);
        }
        let label = reference.text.clone();
        (!label.is_empty()).then_some(Target { form: 1, label, path: Vec::new() })
    }

    /// The path a reference leads to; if none, 3, 4 or 29 unless the log in hand is an overlay's.
    fn resolve(&mut self, log: &Log, target: &Target, reference: &Rec, by: By) -> Option<Text> {
        let (found, look) = post::resolve(&log.definitions, &self.bindings, target, self.rules);
        let (at, own_body) = (Some(reference.address()), log.depth > 0);
        self.looks.extend(look.map(|look| Look { by, reference: at, own_body, ..look }));
        self.event(match (target.form, &found) {
            (1, Ok(_)) => "label found",
            (2, Ok(_)) => "label and path found",
            (_, Ok(_)) => "path found",
            (1, Err(_)) => "label not found",
            (2, Err((3, _))) => "label of a label and path not found",
            (2, Err(_)) => "label and path not found",
            (_, Err(_)) => "path not found",
        });
        match found {
            Ok(path) => {
                if target.form == 2 && target.path == b"/" {
                    self.event("label and path that is \"/\" by l//");
                }
                if target.form == 1 && !queries::contains_node(&log.definitions, &path) {
                    self.event("label found whose node is not live");
                }
                Some(path)
            }
            Err((code, text)) => {
                if !queries::has_plugin(&log.definitions) || (self.rules.in_overlay)(code) {
                    self.report(code, &text, reference.span);
                }
                None
            }
        }
    }

    fn node(&mut self, log: &mut Log, parent: &[u8], node: &Rec) {
        let (has_name, has_slash) = (node.first(tree::NAME).is_some(), node.first(tree::SLASH).is_some());
        if let Some(reference) = node.first(tree::REFERENCE) {
            if has_name {
                self.event("reference beside a name");
            }
            return self.node_by_reference(log, node, reference);
        }
        let is_root;
        let path = match self.full_name(node) {
            Some(name) => {
                is_root = false;
                if has_slash {
                    self.event("name that wins over a slash");
                }
                join(parent, &name)
            }
            None if has_slash => {
                is_root = true;
                if has_name {
                    self.event("root by a slash beside a name that fails");
                }
                b"/".to_vec()
            }
            None => {
                self.event("nameless body dropped");
                let mut body = self.body(log, node);
                self.drop_extensions(&mut body);
                return;
            }
        };
        match (parent.is_empty(), is_root) {
            (true, false) => self.report(5, b"", name_span(node)),
            (false, true) => self.report(6, b"", name_span(node)),
            _ => self.defined_node(log, &path, node),
        }
    }

    fn node_by_reference(&mut self, log: &mut Log, node: &Rec, reference: &Rec) {
        let Some(target) = self.reference(reference) else {
            return self.event("reference unreadable");
        };
        if let Some(path) = self.resolve(log, &target, reference, By::Reopening) {
            return self.defined_node(log, &path, node);
        }
        let mut body = self.body(log, node);
        if !queries::has_plugin(&log.definitions) {
            self.event("extension dropped");
            return self.drop_extensions(&mut body);
        }
        self.event("extension kept");
        if !body.extensions.is_empty() {
            self.event("nested extension kept");
        }
        self.made(2, &[&target.label, &target.path]);
        log.extensions.append(&mut body.extensions);
        log.extensions.push(Extension {
            target,
            body: body.definitions,
            span: node.span,
            name_span: reference.span,
        });
    }

    /// A node's body lowered at "/" into a log of its own.
    fn body(&mut self, log: &Log, node: &Rec) -> Log {
        let mut body = Log { depth: log.depth + 1, ..Log::default() };
        for item in &node.more {
            self.item(&mut body, b"/", item);
        }
        body
    }

    fn drop_extensions(&mut self, body: &mut Log) {
        for _ in body.extensions.drain(..) {
            self.event("extension dropped with its body");
        }
    }

    fn defined_node(&mut self, log: &mut Log, path: &[u8], node: &Rec) {
        let mut labels = Vec::new();
        for part in node.child.iter().filter(|part| part.kind == tree::LABEL) {
            let Some(label) = self.name(part) else { continue };
            if labels.contains(&label) {
                self.event("label twice on a node");
            }
            if part.first(tree::MACRO).is_some() {
                self.event("label with name and macro");
            }
            if log.depth > 0 {
                self.event("binding made in a body of its own");
            }
            self.made(1, &[&label, path]);
            self.bindings.push(Binding { label: label.clone(), path: path.to_vec(), span: part.span });
            labels.push(label);
        }
        let definition = Definition {
            kind: 1,
            path: path.to_vec(),
            span: node.span,
            name_span: name_span(node),
            omit: node.first(tree::OMIT).is_some(),
            labels,
            values: Vec::new(),
        };
        self.define(log, definition);
        for item in &node.more {
            self.item(log, path, item);
        }
    }

    fn directive(&mut self, log: &mut Log, parent: &[u8], directive: &Rec) {
        let plain = |kind: u32, path: Text| Definition {
            kind,
            path,
            span: directive.span,
            name_span: directive.span,
            ..Definition::default()
        };
        match directive.w {
            1 => self.define(log, plain(5, parent.to_vec())),
            2 => self.define(log, plain(6, parent.to_vec())),
            3 => self.report(2, b"", directive.span),
            4 => {
                let Some(path) = self.deleted_node(log, parent, directive) else { return };
                self.unbind(log, &path);
                self.define(log, plain(3, path));
            }
            5 => {
                let Some(name) = directive.first(tree::NAME) else { return };
                self.event("property deleted");
                self.define(log, plain(4, join(parent, &name.text)));
            }
            _ => {}
        }
    }

    /// The path that a delete node directive names.
    fn deleted_node(&mut self, log: &Log, parent: &[u8], directive: &Rec) -> Option<Text> {
        if let Some(name) = self.full_name(directive) {
            self.event("node deleted by name");
            let path = (self.rules.named)(&log.definitions, join(parent, &name));
            if !queries::contains_node(&log.definitions, &path) {
                self.event("deletion of a node that is not there");
                if look_up(&log.definitions, &path) != Found::Nothing {
                    self.event("deletion by name where a short path would match");
                }
                if queries::live(&log.definitions, &path)
                    .iter()
                    .any(|place| log.definitions[*place].kind == 1)
                {
                    self.event("deletion of a node that is not there above live ones");
                }
            }
            return Some(path);
        }
        let reference = directive.first(tree::REFERENCE)?;
        let target = self.reference(reference)?;
        let path = self.resolve(log, &target, reference, By::Deletion);
        self.event(match &path {
            Some(_) => "node deleted by reference",
            None if queries::has_plugin(&log.definitions) => "deletion by reference not found in an overlay",
            None => "deletion by reference not found",
        });
        path
    }

    /// For each live node at or under a path, removes its labels' bindings to that node's path.
    fn unbind(&mut self, log: &Log, path: &[u8]) {
        for place in queries::live(&log.definitions, path) {
            let node = &log.definitions[place];
            for label in &node.labels {
                let before = self.bindings.len();
                self.bindings.retain(|binding| binding.label != *label || binding.path != node.path);
                if self.bindings.len() < before {
                    self.event("binding removed by a deletion");
                    if log.depth > 0 {
                        self.event("binding removed by a deletion in a body of its own");
                    }
                    if self.bindings.iter().any(|binding| binding.label == *label) {
                        self.event("binding left by a deletion of its label's other node");
                    }
                }
            }
        }
    }

    fn property(&mut self, log: &mut Log, parent: &[u8], property: &Rec) {
        if parent.is_empty() {
            return self.report(7, b"", property.span);
        }
        let values: Vec<Value> = property.more.iter().filter_map(|value| self.value(value)).collect();
        let Some(name) = self.full_name(property) else {
            return self.event("property dropped for its name");
        };
        let definition = Definition {
            kind: 2,
            path: join(parent, &name),
            span: property.span,
            name_span: property.first(tree::NAME).map_or(property.span, |name| name.span),
            values,
            ..Definition::default()
        };
        self.define(log, definition);
    }

    /// What was read, or the code reported at a span.
    fn or_report<T>(&mut self, read: Result<T, u32>, span: Span) -> Option<T> {
        read.map_err(|code| self.report(code, b"", span)).ok()
    }

    fn value(&mut self, value: &Rec) -> Option<Value> {
        match value.kind {
            tree::STRING => Some(Value::String(value.text.clone())),
            tree::BYTESTRING => self.or_report(values::bytestring(&value.text), value.span).map(Value::Bytes),
            tree::REFERENCE => self.reference(value).map(Value::Reference),
            tree::CELL_LIST => {
                let width = self.or_report(values::width(&value.text), value.span)?;
                Some(Value::Cells(
                    width,
                    value.child.iter().filter_map(|cell| self.cell(width, cell)).collect(),
                ))
            }
            _ => self.not_a_value(value, 8),
        }
    }

    fn cell(&mut self, width: u32, cell: &Rec) -> Option<Cell> {
        match cell.kind {
            tree::NUMBER => {
                self.or_report(numbers::read_unsigned(&cell.text, width), cell.span).map(Cell::Number)
            }
            tree::CHARACTER => self.or_report(values::character(width, cell.w), cell.span).map(Cell::Number),
            tree::REFERENCE => {
                let target = self.reference(cell)?;
                if width != 32 {
                    self.report(14, b"", cell.span);
                    return None;
                }
                Some(Cell::Reference(target))
            }
            tree::EXPRESSION => self.expression_cell(width, cell),
            _ => self.not_a_value(cell, 9),
        }
    }

    /// An expression cell by the rule of the level.
    fn expression_cell(&mut self, width: u32, cell: &Rec) -> Option<Cell> {
        self.cells.push((width, cell.clone()));
        let by_level = if self.level == UNSIGNED { level_2::cell } else { expressions::cell };
        match by_level(width, cell) {
            Ok(number) => Some(Cell::Number(number)),
            Err(found) => {
                if let Some(Diagnosis { code, text, span, .. }) = found {
                    self.report(code, &text, span);
                }
                None
            }
        }
    }

    /// A macro, a preprocessor line or a directive where a value or cell is due.
    fn not_a_value<T>(&mut self, rec: &Rec, directive: u32) -> Option<T> {
        match rec.kind {
            tree::MACRO => self.report(10, &rec.text, rec.span),
            tree::DIRECTIVE => self.report(directive, b"", rec.span),
            _ => self.report(1, b"", rec.span),
        }
        None
    }
}

/// The reference; else the name, to the later end of name and unit address; else the first slash;
/// else the whole node.
fn name_span(node: &Rec) -> Span {
    if let Some(reference) = node.first(tree::REFERENCE) {
        return reference.span;
    }
    match (node.first(tree::NAME), node.first(tree::UNIT_ADDRESS)) {
        (Some(name), Some(unit)) => (name.span.0, name.span.1.max(unit.span.1)),
        (Some(name), None) => name.span,
        _ => node.first(tree::SLASH).map_or(node.span, |slash| slash.span),
    }
}
