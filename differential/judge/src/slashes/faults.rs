//! Faults planted into our answers: the comparison must find each.

use std::slice;

use super::{NextSlash, WORD, lent, made, shown};
use crate::{leaves, ours};

/// Cases among which a fault must be found.
const CASES: usize = 4_000;

/// Where each planted fault is found first, if it is. Our library must be there.
pub fn found() -> Vec<(&'static str, Option<String>)> {
    let cases = made::cases();
    let cases = &cases[..CASES];
    FAULTS.iter().map(|(name, wrong)| (*name, first_difference(*wrong, cases))).collect()
}

fn first_difference(wrong: NextSlash, cases: &[made::Case]) -> Option<String> {
    cases.iter().enumerate().find_map(|(number, case)| {
        let due = leaves::next_slash(&case.0, case.1);
        let given = lent(wrong, &case.0, case.1);
        let told = || format!("case {}, {}: Rust {due:?}, given {given:?}", number + 1, shown(case));
        (given != [due; 2]).then(told)
    })
}

/// Our function; that it is there was looked at before.
fn ours(path: &[u8], from: usize) -> Option<usize> {
    ours::leaves().expect("our library").next_slash.expect("our function")(path, from)
}

static FAULTS: [(&str, NextSlash); 13] = [
    ("slashes: one among the last bytes, fewer than eight, is missed", |path, from| {
        let words = path.len().saturating_sub(from) / WORD * WORD;
        ours(path, from).filter(|place| place - from < words)
    }),
    ("slashes: a 0x30 behind one is taken for one", |path, from| {
        also(path, from, |path, place| path[place] == 0x30 && place > 0 && path[place - 1] == b'/')
    }),
    ("slashes: 0xaf is taken for one", |path, from| also(path, from, |path, place| path[place] == 0xaf)),
    ("slashes: one behind 0xff is missed", |path, from| missed(path, from, |before| before == 0xff)),
    ("slashes: one behind another is missed", |path, from| missed(path, from, |before| before == b'/')),
    ("slashes: the last of a word is found", |path, from| {
        ours(path, from).map(|place| {
            let word = from + (place - from) / WORD * WORD;
            let end = path.len().min(word + WORD);
            path[..end].iter().rposition(|byte| *byte == b'/').unwrap_or(place)
        })
    }),
    ("slashes: only the first word is looked at", |path, from| {
        ours(path, from).filter(|place| place - from < WORD)
    }),
    ("slashes: words start at multiples of eight", |path, from| ours(path, from / WORD * WORD)),
    ("slashes: one at the given place is passed over", |path, from| ours(path, from.saturating_add(1))),
    ("slashes: the place is counted from the given one", |path, from| {
        ours(path, from).map(|place| place - from)
    }),
    ("slashes: the length is found where there is none", |path, from| ours(path, from).or(Some(path.len()))),
    ("slashes: the given place is cut to 32 bits", |path, from| ours(path, from as u32 as usize)),
    ("slashes: a byte behind the path is read", |path, from| {
        // SAFETY: a text that is lent lies in memory with other bytes behind it.
        ours(unsafe { slice::from_raw_parts(path.as_ptr(), path.len() + 1) }, from)
    }),
];

/// The first slash or other byte of which something holds.
fn also(path: &[u8], from: usize, holds: fn(&[u8], usize) -> bool) -> Option<usize> {
    let end = ours(path, from).unwrap_or(path.len());
    (from..end).find(|place| holds(path, *place)).or(ours(path, from))
}

/// The first slash that is not right behind such a byte.
fn missed(path: &[u8], from: usize, passed: fn(u8) -> bool) -> Option<usize> {
    let place = ours(path, from)?;
    if place > 0 && passed(path[place - 1]) { missed(path, place + 1, passed) } else { Some(place) }
}
