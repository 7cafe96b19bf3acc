//! How long the next slash takes: ours through C against the Rust's `find`, and against a loop over bytes.

use std::hint::black_box;

use super::NextSlash;
use crate::{
    measure::{Times, measured},
    ours::Leaves,
};

/// Bytes of the texts without a slash.
const LENGTHS: [usize; 7] = [4, 8, 16, 32, 64, 256, 4096];

/// Components of a path, and the bytes of each.
const COMPONENTS: usize = 6;
const COMPONENT: [usize; 4] = [4, 8, 12, 24];

/// Searches in a run, so that a run is longer than what surrounds it.
const SEARCHES: usize = 64;

/// Measures and prints the tables.
pub fn run(side: &Leaves) -> Result<(), String> {
    let ours = side.next_slash.ok_or("there is no next slash")?;
    println!(
        "\n| bytes without a slash | ours, ns | `find`, ns | byte loop, ns | ours to `find` | ours to the loop |"
    );
    println!("|---:|---:|---:|---:|---:|---:|");
    for length in LENGTHS {
        searched(ours, length)?;
    }
    println!(
        "\n| bytes of a component | slashes of the path, all walked over | ours, ns | `find`, ns | byte loop, ns | ours to `find` | ours to the loop |"
    );
    println!("|---:|---:|---:|---:|---:|---:|---:|");
    for length in COMPONENT {
        walked(ours, length)?;
    }
    Ok(())
}

/// The Rust's `find`.
fn by_find(text: &str, from: usize) -> Option<usize> {
    text.get(from..)?.find('/').map(|place| from + place)
}

/// A byte at a time.
fn by_bytes(text: &str, from: usize) -> Option<usize> {
    text.as_bytes().get(from..)?.iter().position(|byte| *byte == b'/').map(|place| from + place)
}

/// A row: a search that finds nothing.
fn searched(ours: NextSlash, length: usize) -> Result<(), String> {
    let text = &"a".repeat(length);
    same([ours(text.as_bytes(), 0), by_find(text, 0), by_bytes(text, 0)])?;
    let times = measured([
        &mut || repeated(|| ours(black_box(text.as_bytes()), black_box(0))),
        &mut || repeated(|| by_find(black_box(text), black_box(0))),
        &mut || repeated(|| by_bytes(black_box(text), black_box(0))),
    ]);
    println!("| {length} | {} |", figures(times));
    Ok(())
}

/// A row: all slashes of a path, one after the other.
fn walked(ours: NextSlash, length: usize) -> Result<(), String> {
    let path = &format!("/{}", "a".repeat(length)).repeat(COMPONENTS);
    let by_ours = |path: &str, from| ours(path.as_bytes(), from);
    same([walk(path, by_ours), walk(path, by_find), walk(path, by_bytes)])?;
    let times = measured([
        &mut || repeated(|| walk(black_box(path), by_ours)),
        &mut || repeated(|| walk(black_box(path), by_find)),
        &mut || repeated(|| walk(black_box(path), by_bytes)),
    ]);
    println!("| {length} | {COMPONENTS} | {} |", figures(times));
    Ok(())
}

/// The places of all slashes, added up.
fn walk(path: &str, next_slash: impl Fn(&str, usize) -> Option<usize>) -> usize {
    let (mut from, mut places) = (0, 0);
    while let Some(place) = next_slash(path, from) {
        places += place;
        from = place + 1;
    }
    places
}

fn repeated<T>(search: impl Fn() -> T) {
    for _ in 0..SEARCHES {
        black_box(search());
    }
}

/// The times of one search, and ours to the others.
fn figures(times: [Times; 3]) -> String {
    let [ours, find, bytes] = times.map(|times| times.over(SEARCHES as f64).least);
    format!("{ours:.1} | {find:.1} | {bytes:.1} | {:.2} | {:.2}", ours / find, ours / bytes)
}

/// All must give the same.
fn same<T: PartialEq>([ours, find, bytes]: [T; 3]) -> Result<(), String> {
    if ours == find && ours == bytes { Ok(()) } else { Err("the answers differ".to_owned()) }
}
