//! Faults of the look-up (02, request 5). Most are planted by lowering with 01's sentences and a wrong rule.

use std::collections::BTreeSet;

use super::{By, Fault, slips::rewritten};
use crate::{
    answer::{Definition, Text},
    by_01::{
        paths::{is_path, under},
        queries::{contains_node, is_live},
        written::lower_by_rules,
    },
    by_02::short_paths::{
        Found, LookUp, Rules, SEVERAL, before_at, components_match, look_up, matching, of_matches,
        path_matches,
    },
    output,
    records::Records,
};

pub static FAULTS: [Fault; 18] =
    [
        ("short paths: the first match of two is taken", By::ShortPaths, |records, words, bytes| {
            wrong(records, words, bytes, |log, _, path| match look_up(log, path) {
                Found::Several => Found::Short(first_made(log, path)),
                found => found,
            })
        }),
        ("short paths: bay matches bayou@1", By::ShortPaths, |records, words, bytes| {
            wrong(records, words, bytes, |log, _, path| {
                by_components(log, path, |one, other| {
                    if one.contains(&b'@') { one == other } else { other.starts_with(one) }
                })
            })
        }),
        ("short paths: the written path is used", By::ShortPaths, |records, words, bytes| {
            wrong(records, words, bytes, |log, _, path| match look_up(log, path) {
                Found::Short(_) => Found::Short(path.to_vec()),
                found => found,
            })
        }),
        ("short paths: 4 in place of 29", By::ShortPaths, |records, words, bytes| {
            wrong(records, words, bytes, |log, _, path| match look_up(log, path) {
                Found::Several => Found::Nothing,
                found => found,
            })
        }),
        ("short paths: 29 without the path", By::ShortPaths, |records, words, bytes| {
            rewritten(records, words, bytes, |answer, _| {
                let found = answer.lowering.iter_mut().chain(&mut answer.post);
                found.filter(|found| found.code == SEVERAL).for_each(|found| found.text.clear());
            })
        }),
        ("short paths: a deleted node matches", By::ShortPaths, |records, words, bytes| {
            wrong(records, words, bytes, deleted_matches)
        }),
        ("pairs: a deleted node matches a short path", By::Pairs, |records, words, bytes| {
            wrong(records, words, bytes, deleted_matches)
        }),
        ("short paths: 29 in an overlay", By::ShortPaths, |records, words, bytes| {
            let rules = Rules { in_overlay: |code| code == SEVERAL, ..Rules::default() };
            lower_by_rules(rules, records, words, bytes)
        }),
        ("short paths: bay@ matches bay@1", By::ShortPaths, |records, words, bytes| {
            wrong(records, words, bytes, |log, _, path| {
                by_components(log, path, |one, other| match one.strip_suffix(b"@") {
                    Some(base) => base == before_at(other),
                    None if one.contains(&b'@') => one == other,
                    None => one == before_at(other),
                })
            })
        }),
        ("short paths: the label's own path is exact", By::ShortPaths, |records, words, bytes| {
            wrong(records, words, bytes, |log, front, path| match look_up(log, path) {
                Found::Exact => Found::Exact,
                _ => kept(log, path, |full| front.is_none_or(|front| under(full, front))),
            })
        }),
        ("short paths: a deletion by name is short", By::ShortPaths, |records, words, bytes| {
            let named = |log: &[Definition], path: Text| match look_up(log, &path) {
                Found::Short(full) => full,
                _ => path,
            };
            lower_by_rules(Rules { named, ..Rules::default() }, records, words, bytes)
        }),
        ("short paths: only the last component may be short", By::ShortPaths, |records, words, bytes| {
            wrong(records, words, bytes, |log, _, path| match look_up(log, path) {
                Found::Exact => Found::Exact,
                _ => kept(log, path, |full| above(full) == above(path)),
            })
        }),
        ("short paths: row 9's form is not needed", By::ShortPaths, |records, words, bytes| {
            wrong(records, words, bytes, |log, _, path| match look_up(log, path) {
                Found::Nothing if !is_path(path) => {
                    of_nodes(log, |place| path_matches(path, &log[place].path))
                }
                found => found,
            })
        }),
        ("short paths: the exact node is one of several", By::ShortPaths, |records, words, bytes| {
            wrong(records, words, bytes, |log, _, path| match of_matches(&matching(log, path)) {
                Found::Several => Found::Several,
                _ => look_up(log, path),
            })
        }),
        ("short paths: two definitions of one path are several", By::ShortPaths, |records, words, bytes| {
            wrong(records, words, bytes, |log, _, path| match look_up(log, path) {
                Found::Short(full) if definitions(log, &full) > 1 => Found::Several,
                found => found,
            })
        }),
        ("short paths: a property matches", By::ShortPaths, |records, words, bytes| {
            wrong(records, words, bytes, |log, _, path| match look_up(log, path) {
                Found::Nothing if is_path(path) && path.len() > 1 => {
                    of_places(log, |place| log[place].kind == 2 && path_matches(path, &log[place].path))
                }
                found => found,
            })
        }),
        ("short paths: up to the last @", By::ShortPaths, |records, words, bytes| {
            wrong(records, words, bytes, |log, _, path| {
                by_components(log, path, |one, other| {
                    let at = other.iter().rposition(|byte| *byte == b'@').unwrap_or(other.len());
                    one == if one.contains(&b'@') { other } else { &other[..at] }
                })
            })
        }),
        ("short paths: no second rule", By::ShortPaths, |records, words, bytes| {
            wrong(records, words, bytes, |log, _, path| match look_up(log, path) {
                Found::Exact => Found::Exact,
                _ => Found::Nothing,
            })
        }),
    ];

/// Lowers with a wrong look-up.
fn wrong(records: &Records, words: &mut [u32], bytes: &mut [u8], look_up: LookUp) -> (u32, u32) {
    lower_by_rules(Rules { look_up, ..Rules::default() }, records, words, bytes)
}

/// What live definitions that are of a sort are, as matches.
fn of_places(log: &[Definition], is: impl Fn(usize) -> bool) -> Found {
    let places = (0..log.len()).filter(|place| is(*place) && is_live(log, *place));
    of_matches(&places.map(|place| &log[place].path[..]).collect())
}

fn of_nodes(log: &[Definition], is: impl Fn(usize) -> bool) -> Found {
    of_places(log, |place| log[place].kind == 1 && is(place))
}

/// The look-up with another rule for components.
fn by_components(log: &[Definition], path: &[u8], matches: fn(&[u8], &[u8]) -> bool) -> Found {
    match look_up(log, path) {
        Found::Exact => Found::Exact,
        _ if path.len() < 2 || !is_path(path) => Found::Nothing,
        _ => of_nodes(log, |place| components_match(path, &log[place].path, matches)),
    }
}

/// Those matches of the second rule that are of a sort.
fn kept(log: &[Definition], path: &[u8], is: impl Fn(&[u8]) -> bool) -> Found {
    let paths: BTreeSet<&[u8]> = matching(log, path).into_iter().filter(|full| is(full)).collect();
    of_matches(&paths)
}

/// The match that was made first.
fn first_made(log: &[Definition], path: &[u8]) -> Text {
    let matches = matching(log, path);
    let first = log.iter().find(|made| made.kind == 1 && matches.contains(&made.path[..]));
    first.map(|made| made.path.clone()).unwrap_or_default()
}

/// A look-up for which nodes that are not live count too.
fn deleted_matches(log: &[Definition], _: Option<&[u8]>, path: &[u8]) -> Found {
    match look_up(log, path) {
        Found::Exact => Found::Exact,
        _ if path.len() < 2 || !is_path(path) => Found::Nothing,
        _ => {
            let nodes = log.iter().filter(|made| made.kind == 1 && path_matches(path, &made.path));
            of_matches(&nodes.map(|made| &made.path[..]).collect())
        }
    }
}

/// How many live nodes have a path.
fn definitions(log: &[Definition], path: &[u8]) -> usize {
    (0..log.len())
        .filter(|place| log[*place].kind == 1 && log[*place].path == path && is_live(log, *place))
        .count()
}

/// A path without its last component.
fn above(path: &[u8]) -> &[u8] {
    &path[..path.iter().rposition(|byte| *byte == b'/').unwrap_or(0)]
}

/// contains_node that takes a short path too.
pub fn contains_short(words: &[u32], bytes: &[u8], path: &[u8]) -> (u32, u32) {
    let log = output::read(words, bytes).expect("a written log").answer.definitions;
    let contains = contains_node(&log, path) || matches!(look_up(&log, path), Found::Short(_));
    (0, contains.into())
}
