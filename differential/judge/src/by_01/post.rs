//! The post checks: labels, references, directives.

use super::{paths::join, queries};
use crate::{
    answer::{Binding, Cell, Definition, Diagnosis, Target, Text, Value},
    by_02::short_paths::{By, Found, Look, Rules, SEVERAL, beside},
};

/// What the post checks report; the paths that they look up are put to the others.
pub fn post_checks(
    log: &[Definition],
    bindings: &[Binding],
    rules: Rules,
    looks: &mut Vec<Look>,
) -> Vec<Diagnosis> {
    let mut found = Vec::new();
    labels(bindings, &mut found);
    if !queries::has_plugin(log) {
        for (target, property) in references(log) {
            let (resolved, look) = resolve(log, bindings, target, rules);
            looks.extend(look);
            if let Err((code, text)) = resolved {
                found.push(Diagnosis { code, text, span: property.name_span, earlier: (0, 0) });
            }
        }
    }
    directives(log, &mut found);
    found
}

/// By first remaining binding: each further binding of the label to a path not seen before.
fn labels(bindings: &[Binding], found: &mut Vec<Diagnosis>) {
    for (place, first) in bindings.iter().enumerate() {
        if bindings[..place].iter().any(|earlier| earlier.label == first.label) {
            continue;
        }
        let mut seen = vec![&first.path];
        for binding in bindings[place + 1..].iter().filter(|later| later.label == first.label) {
            if !seen.contains(&&binding.path) {
                seen.push(&binding.path);
                found.push(Diagnosis {
                    code: 20,
                    text: first.label.clone(),
                    span: binding.span,
                    earlier: first.span,
                });
            }
        }
    }
}

/// References of live properties, latest property first, each with its property.
fn references(log: &[Definition]) -> Vec<(&Target, &Definition)> {
    let mut found = Vec::new();
    for place in queries::live(log, b"") {
        let property = &log[place];
        for value in &property.values {
            match value {
                Value::Reference(target) => found.push((target, property)),
                Value::Cells(_, cells) => found.extend(cells.iter().filter_map(|cell| match cell {
                    Cell::Reference(target) => Some((target, property)),
                    Cell::Number(_) => None,
                })),
                _ => {}
            }
        }
    }
    found
}

/// The path a reference leads to, or code 3 with the label, 4 or 29 with the path.
type Resolved = Result<Text, (u32, Text)>;

/// Resolves a reference: a label needs a remaining binding; a path, or label and path, is looked up in the log.
/// The look-up, if there is one, is told as a post check's.
pub fn resolve(
    log: &[Definition],
    bindings: &[Binding],
    target: &Target,
    rules: Rules,
) -> (Resolved, Option<Look>) {
    let bound = bindings.iter().find(|binding| binding.label == target.label).map(|binding| &binding.path);
    let (front, path) = match (target.form, bound) {
        (3, _) => (None, target.path.clone()),
        (_, None) => return (Err((3, target.label.clone())), None),
        (1, Some(path)) => return (Ok(path.clone()), None),
        (_, Some(base)) => (Some(base), join(base, &target.path)),
    };
    let found = (rules.look_up)(log, front.map(Vec::as_slice), &path);
    let resolved = match &found {
        Found::Exact => Ok(path.clone()),
        Found::Short(full) => Ok(full.clone()),
        Found::Several => Err((SEVERAL, path.clone())),
        Found::Nothing => Err((4, path.clone())),
    };
    let beside = beside(log, &path, &found);
    let (front, overlay) = (front.cloned(), queries::has_plugin(log));
    let look =
        Look { by: By::PostCheck, reference: None, own_body: false, overlay, front, path, found, beside };
    (resolved, Some(look))
}

/// 23 once, for a definition before any version directive of the header; 21 for each version
/// directive behind definitions; 22 for a plugin directive not right behind a version directive
/// of the header.
fn directives(log: &[Definition], found: &mut Vec<Diagnosis>) {
    let mut at = |code: u32, definition: &Definition| {
        found.push(Diagnosis { code, text: Vec::new(), span: definition.name_span, earlier: (0, 0) });
    };
    let first = log.iter().position(|definition| definition.kind <= 4).unwrap_or(log.len());
    let version_in_header = log[..first].iter().any(|definition| definition.kind == 5);
    for (place, definition) in log.iter().enumerate() {
        match definition.kind {
            5 if place > first => at(21, definition),
            6 if place > first || place == 0 || log[place - 1].kind != 5 => at(22, definition),
            1..=4 if place == first && !version_in_header => at(23, definition),
            _ => {}
        }
    }
}
