//! Faults planted into our answers: the comparison must find each.

use super::{compare_seed, layout::Log, rust};
use crate::{
    by_01::row_8,
    coverage::Coverage,
    library::{Contains, List, Queries},
    logs::Counts,
    ours,
};

/// Logs among which a fault must be found.
const LOGS: u64 = 2_000;

/// Where each planted fault is found first, if it is.
pub fn found() -> Vec<(&'static str, Option<String>)> {
    planted().into_iter().map(|(name, side)| (name, first_difference(&side))).collect()
}

fn first_difference(side: &Queries) -> Option<String> {
    let (mut counts, mut coverage) = (Counts::default(), Coverage::empty());
    (0..LOGS).find_map(|seed| {
        let fault = compare_seed(side, seed, &mut counts, &mut coverage).into_iter().next()?;
        Some(format!("seed {seed}, {fault}"))
    })
}

/// Our queries; that they are there was looked at before.
fn ours() -> Queries {
    ours::library().expect("our library").queries
}

/// Our queries with one fault each.
fn planted() -> Vec<(&'static str, Queries)> {
    let live = LIVE.into_iter().map(|(name, live)| (name, Queries { live, ..ours() }));
    let history = HISTORY.into_iter().map(|(name, history)| (name, Queries { history, ..ours() }));
    let contains =
        CONTAINS_NODE.into_iter().map(|(name, contains_node)| (name, Queries { contains_node, ..ours() }));
    live.chain(history).chain(contains).collect()
}

const LIVE: [(&str, List); 9] = [
    ("live: earliest first", |w, b, p, list| turned(ours().live, w, b, p, list)),
    ("live: the last answer is left out", |w, b, p, list| cut(ours().live, w, b, p, list)),
    ("live: /ab is taken for a child of /a", by_prefix),
    ("live: \"\" is under \"/\"", |w, b, p, list| (ours().live)(w, b, if p == b"/" { b"" } else { p }, list)),
    ("live: written past its answers", |w, b, p, list| past(ours().live, w, b, p, list)),
    ("live: written without room", |w, b, p, list| without_room(ours().live, w, b, p, list)),
    ("live: row 10 returns the room", |w, b, p, list| room(ours().live, w, b, p, list)),
    ("live: refused with just enough room", |w, b, p, list| too_soon(ours().live, w, b, p, list)),
    ("live: row 9 passes /a/", |w, b, p, list| (ours().live)(w, b, trimmed(p), list)),
];

const HISTORY: [(&str, List); 6] = [
    ("history: latest first", |w, b, p, list| turned(ours().history, w, b, p, list)),
    ("history: the last answer is left out", |w, b, p, list| cut(ours().history, w, b, p, list)),
    ("history: deletions above are left out", only_at),
    ("history: written past its answers", |w, b, p, list| past(ours().history, w, b, p, list)),
    ("history: written without room", |w, b, p, list| without_room(ours().history, w, b, p, list)),
    ("history: row 9 passes /a/", |w, b, p, list| (ours().history)(w, b, trimmed(p), list)),
];

const CONTAINS_NODE: [(&str, Contains); 6] = [
    ("contains_node: a deleted node is there", ever_there),
    ("contains_node: a property is a node", anything_live),
    ("contains_node: row 9 passes /a/", |w, b, p| (ours().contains_node)(w, b, trimmed(p))),
    ("row 8: another record at fault is returned", highest),
    ("row 8: never", |w, b, p| match (ours().contains_node)(w, b, p) {
        (8, _) => (0, 0),
        answer => answer,
    }),
    ("row 9 before row 8", |w, b, p| match (ours().contains_node)(w, b, p) {
        (8, _) if p == b"//" => (9, 0),
        answer => answer,
    }),
];

type Answered = (u32, u32);

fn turned(ask: List, words: &[u32], bytes: &[u8], path: &[u8], list: &mut [u32]) -> Answered {
    let answer = ask(words, bytes, path, list);
    if answer.0 == 0 {
        list[..answer.1 as usize].reverse();
    }
    answer
}

fn cut(ask: List, words: &[u32], bytes: &[u8], path: &[u8], list: &mut [u32]) -> Answered {
    match ask(words, bytes, path, list) {
        (0, count) => (0, count.saturating_sub(1)),
        answer => answer,
    }
}

fn past(ask: List, words: &[u32], bytes: &[u8], path: &[u8], list: &mut [u32]) -> Answered {
    let answer = ask(words, bytes, path, list);
    if answer.0 == 0
        && let Some(behind) = list.get_mut(answer.1 as usize)
    {
        *behind = 0;
    }
    answer
}

fn without_room(ask: List, words: &[u32], bytes: &[u8], path: &[u8], list: &mut [u32]) -> Answered {
    let answer = ask(words, bytes, path, list);
    if answer.0 == 10 {
        list.fill(1);
    }
    answer
}

fn room(ask: List, words: &[u32], bytes: &[u8], path: &[u8], list: &mut [u32]) -> Answered {
    match ask(words, bytes, path, list) {
        (10, _) => (10, list.len() as u32),
        answer => answer,
    }
}

fn too_soon(ask: List, words: &[u32], bytes: &[u8], path: &[u8], list: &mut [u32]) -> Answered {
    match ask(words, bytes, path, list) {
        (0, count) if count > 0 && count as usize == list.len() => (10, count),
        answer => answer,
    }
}

/// The path without a slash at its end.
fn trimmed(path: &[u8]) -> &[u8] {
    match path {
        [before @ .., b'/'] if !before.is_empty() => before,
        _ => path,
    }
}

/// The main chain's definitions, of a log that our library accepts: number, kind, path.
fn definitions(words: &[u32], bytes: &[u8]) -> Vec<(u32, u32, Vec<u8>)> {
    let log = Log { words: words.into(), bytes: bytes.into() };
    let found = rust::definitions(&log);
    found.into_iter().map(|(number, kind, path)| (number, kind, path.to_vec())).collect()
}

/// Keeps the answers that fit, at the start of the list.
fn kept(list: &mut [u32], count: u32, fits: impl Fn(u32) -> bool) -> Answered {
    let kept: Vec<u32> = list[..count as usize].iter().copied().filter(|number| fits(*number)).collect();
    list[..kept.len()].copy_from_slice(&kept);
    (0, kept.len() as u32)
}

fn by_prefix(words: &[u32], bytes: &[u8], base: &[u8], list: &mut [u32]) -> Answered {
    let (number, count) = (ours().live)(words, bytes, base, list);
    if number != 0 {
        return (number, count);
    }
    let mut all = vec![0; words.len()];
    let (_, live) = (ours().live)(words, bytes, b"", &mut all);
    let definitions = definitions(words, bytes);
    let begins = |number| definitions.iter().any(|(at, _, path)| *at == number && path.starts_with(base));
    let (_, count) = kept(&mut all, live, begins);
    if count as usize > list.len() {
        return (10, count);
    }
    list[..count as usize].copy_from_slice(&all[..count as usize]);
    (0, count)
}

fn only_at(words: &[u32], bytes: &[u8], path: &[u8], list: &mut [u32]) -> Answered {
    match (ours().history)(words, bytes, path, list) {
        (0, count) => {
            let definitions = definitions(words, bytes);
            kept(list, count, |number| definitions.iter().any(|(at, _, text)| *at == number && text == path))
        }
        answer => answer,
    }
}

fn ever_there(words: &[u32], bytes: &[u8], path: &[u8]) -> Answered {
    match (ours().contains_node)(words, bytes, path) {
        (0, _) => (0, definitions(words, bytes).iter().any(|(_, kind, at)| *kind == 1 && at == path).into()),
        answer => answer,
    }
}

fn anything_live(words: &[u32], bytes: &[u8], path: &[u8]) -> Answered {
    let mut list = vec![0; words.len()];
    match (ours().live)(words, bytes, path, &mut list) {
        (0, count) => (0, u32::from(count > 0 && !path.is_empty())),
        answer => answer,
    }
}

fn highest(words: &[u32], bytes: &[u8], path: &[u8]) -> Answered {
    match (ours().contains_node)(words, bytes, path) {
        (8, _) => (8, row_8::refusal(words, bytes).faults.last().map_or(0, |(record, _)| *record)),
        answer => answer,
    }
}
