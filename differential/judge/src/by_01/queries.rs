//! Liveness and history, in the words of 01.

use super::paths::under;
use crate::answer::{Definition, Query, Text};

/// Whether the definition at `place` is live.
pub fn is_live(log: &[Definition], place: usize) -> bool {
    let definition = &log[place];
    let deletion = matches!(definition.kind, 3 | 4);
    let deleted = |later: &Definition| later.kind == 3 && under(&definition.path, &later.path);
    let replaced = |later: &Definition| {
        definition.kind == 2 && matches!(later.kind, 2 | 4) && later.path == definition.path
    };
    !deletion && !log[place + 1..].iter().any(|later| deleted(later) || replaced(later))
}

/// Live definitions at or under a base, latest first.
pub fn live(log: &[Definition], base: &[u8]) -> Vec<usize> {
    (0..log.len()).rev().filter(|place| under(&log[*place].path, base) && is_live(log, *place)).collect()
}

/// Whether a node at this path is live.
pub fn contains_node(log: &[Definition], path: &[u8]) -> bool {
    (0..log.len()).any(|place| log[place].kind == 1 && log[place].path == path && is_live(log, place))
}

/// Definitions at a path, and node deletions above it while it is defined, earliest first.
pub fn history(log: &[Definition], path: &[u8]) -> Vec<usize> {
    let mut listed = Vec::new();
    let mut defined = false;
    for (place, definition) in log.iter().enumerate() {
        if definition.path == path {
            listed.push(place);
            match definition.kind {
                1 | 2 => defined = true,
                3 | 4 => defined = false,
                _ => {}
            }
        } else if definition.kind == 3 && under(path, &definition.path) && defined {
            listed.push(place);
            defined = false;
        }
    }
    listed
}

pub fn query(log: &[Definition], path: Text) -> Query {
    Query { live: live(log, &path), history: history(log, &path), contains: contains_node(log, &path), path }
}

/// Whether a log has a plugin directive.
pub fn has_plugin(log: &[Definition]) -> bool {
    log.iter().any(|definition| definition.kind == 6)
}
