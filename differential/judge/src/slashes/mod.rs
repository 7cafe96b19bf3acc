//! Slashes found a word at a time (02, request 8), against the Rust's `find`.

pub mod faults;
mod made;
pub mod speed;

use crate::{
    coverage::Coverage,
    guarded::Guarded,
    leaves,
    numbers::{Lines, Run},
    ours::Leaves,
    worked::escaped,
};
use made::{Case, NEIGHBOURS};

/// A path and a place; where the first "/" at or behind it stands.
pub type NextSlash = fn(&[u8], usize) -> Option<usize>;

/// Bytes of a word.
const WORD: usize = 8;

/// Bytes on each side of a text that is lent.
const AROUND: usize = 16;

/// What lies around it, in turn: an answer that depends on it shows.
const OUTSIDE: [u8; 2] = [b'/', 0xff];

/// What a side gives for a text between slashes, and between other bytes.
fn lent(next_slash: NextSlash, text: &[u8], from: usize) -> [Option<usize>; 2] {
    OUTSIDE.map(|outside| {
        let mut memory = vec![outside; AROUND + text.len() + AROUND];
        let path = &mut memory[AROUND..][..text.len()];
        path.copy_from_slice(text);
        next_slash(path, from)
    })
}

fn shown((text, from): &Case) -> String {
    format!("\"{}\" from {from}", escaped(text))
}

/// Compares the Rust with a side.
pub fn compare(side: &Leaves, most: u64, coverage: &mut Coverage, lines: &mut Lines) {
    let Some(next_slash) = side.next_slash else { return };
    let mut run = Run::new("next slash", most);
    let mut guarded = Guarded::new();
    for case in made::cases() {
        if run.full() {
            break;
        }
        let (text, from) = (&case.0, case.1);
        let rust = leaves::next_slash(text, from);
        for feature in features(text, from, rust) {
            coverage.add(feature, 1);
        }
        let given = [lent(next_slash, text, from), guarded.lent(text, |path| next_slash(path, from))];
        run.compare(|| shown(&case), [[rust; 2]; 2], given);
    }
    run.end(lines);
}

/// What is to come up.
pub fn wanted() -> impl Iterator<Item = String> {
    let lanes = (0..WORD).flat_map(|lane| [in_lane(lane, "the first"), in_lane(lane, "a later")]);
    let singly = (0..WORD - 1).map(among_last);
    let beside =
        NEIGHBOURS[1..].iter().flat_map(|byte| ["before", "behind"].map(|side| next_to(*byte, side)));
    let nowhere = ["words", "last bytes", "words and last bytes"].map(none_in);
    let starts = ["the end", "behind the end", "the largest place"].map(starting);
    lanes.chain(singly).chain(beside).chain(nowhere).chain(starts).chain([EMPTY.to_owned()])
}

const EMPTY: &str = "the next slash of an empty text";

fn in_lane(lane: usize, word: &str) -> String {
    format!("a slash in byte {lane} of {word} word")
}

fn among_last(place: usize) -> String {
    format!("a slash in byte {place} of the last ones")
}

fn next_to(byte: u8, side: &str) -> String {
    format!("a slash with {byte:#04x} {side} it")
}

fn none_in(what: &str) -> String {
    format!("no slash in {what}")
}

fn starting(place: &str) -> String {
    format!("no slash from {place}")
}

/// What a case has of it.
fn features(text: &[u8], from: usize, found: Option<usize>) -> Vec<String> {
    let mut features = Vec::new();
    if text.is_empty() {
        features.push(EMPTY.to_owned());
    }
    if from == usize::MAX {
        features.push(starting("the largest place"));
    }
    if from >= text.len() {
        features.push(starting(if from == text.len() { "the end" } else { "behind the end" }));
        return features;
    }
    let left = text.len() - from;
    let words = left / WORD * WORD;
    match found.map(|place| (place, place - from)) {
        None if words == 0 => features.push(none_in("last bytes")),
        None if words == left => features.push(none_in("words")),
        None => features.push(none_in("words and last bytes")),
        Some((place, way)) => {
            features.push(match way {
                _ if way >= words => among_last(way - words),
                _ if way >= WORD => in_lane(way % WORD, "a later"),
                _ => in_lane(way, "the first"),
            });
            let beside = [(place.checked_sub(1), "before"), (Some(place + 1), "behind")];
            let beside = beside.into_iter().filter_map(|(place, side)| Some((*text.get(place?)?, side)));
            let known = beside.filter(|(byte, _)| NEIGHBOURS[1..].contains(byte));
            features.extend(known.map(|(byte, side)| next_to(byte, side)));
        }
    }
    features
}
