//! A whole side on one description: records in, records out, and queries of what was written.

use crate::{
    answer::{Answer, Query},
    by_02::files::Files,
    library::{Library, List},
    output::{self, Output, RECORD},
    random::Random,
    records::Records,
    room::Room,
};

/// What is due for a description that rows 1 to 6 accept: the log, and row 7's counts of what is made.
pub struct Due<'a> {
    pub records: &'a Records,
    pub answer: &'a Answer,
    pub made: (u64, u64),
}

/// Queries asked of each log that was written, beside the one of "".
const QUERIES: usize = 2;

/// Compares a side with what is due, in rooms just large enough, larger, and one short in records or
/// in bytes; and some of the queries.
pub fn compare(side: &Library, due: &Due, queries: &[Query], random: &mut Random) -> Result<(), String> {
    let (words, bytes) = (due.made.0 as usize * RECORD, due.made.1 as usize);
    let (room, output) = lowered(side, due, words, bytes)?;
    lowered(side, due, words + 1 + random.below(3 * RECORD), bytes + 1 + random.below(20))?;
    short(side, due, words - 1 - random.below(RECORD), bytes)?;
    if bytes > 0 {
        short(side, due, words, bytes - 1)?;
    }
    for place in 0..=QUERIES.min(queries.len().saturating_sub(1)) {
        let query = if place == 0 { queries.first() } else { queries.get(random.below(queries.len())) };
        if let Some(query) = query {
            compare_query(side, query, &room, &output)?;
        }
    }
    Ok(())
}

/// Lowers into buffers of a size in which all has room: they must hold the log that is due, the counts,
/// and zeros.
pub fn lowered(side: &Library, due: &Due, words: usize, bytes: usize) -> Result<(Room, Output), String> {
    let mut room = Room::new(words, bytes);
    let answer = room.lower(side.lower, due.records)?;
    if answer != (0, 0) {
        return Err(format!("{answer:?} with room for {words} words and {bytes} bytes"));
    }
    let output = output::read(room.words(), room.bytes())?;
    if (u64::from(output.records), u64::from(output.bytes)) != due.made {
        let (used, made) = ((output.records, output.bytes), due.made);
        return Err(format!("{used:?} records and bytes used, {made:?} due"));
    }
    let files = || output.files.difference(&Files::of(due.answer, &due.records.starts));
    match difference(&output.answer, due.answer).or_else(files) {
        Some(part) => Err(format!("{part} differ")),
        None => Ok((room, output)),
    }
}

/// The part in which two logs differ.
fn difference(ours: &Answer, due: &Answer) -> Option<&'static str> {
    let parts = [
        ("definitions", ours.definitions == due.definitions),
        ("extensions", ours.extensions == due.extensions),
        ("bindings", ours.bindings == due.bindings),
        ("lowering's diagnostics", ours.lowering == due.lowering),
        ("the post checks' diagnostics", ours.post == due.post),
    ];
    parts.into_iter().find(|(_, same)| !same).map(|(part, _)| part)
}

/// Lowers into buffers of a size in which not all has room: row 7, and zeros.
pub fn short(side: &Library, due: &Due, words: usize, bytes: usize) -> Result<(), String> {
    let mut room = Room::new(words, bytes);
    let answer = room.lower(side.lower, due.records)?;
    if answer != (7, 0) {
        return Err(format!("{answer:?} with room for {words} words and {bytes} bytes, 7 due"));
    }
    if room.is_zero() { Ok(()) } else { Err("row 7 leaves something else than zeros".to_owned()) }
}

fn compare_query(side: &Library, query: &Query, room: &Room, output: &Output) -> Result<(), String> {
    let (words, bytes, path) = (room.words(), room.bytes(), &query.path[..]);
    let numbers = |places: &[usize]| places.iter().map(|place| output.numbers[*place]).collect::<Vec<u32>>();
    compare_list("live", side.queries.live, room, path, &numbers(&query.live))?;
    compare_list("history", side.queries.history, room, path, &numbers(&query.history))?;
    match (side.queries.contains_node)(words, bytes, path) {
        answer if answer == (0, query.contains.into()) => Ok(()),
        answer => Err(format!("contains_node of {} gives {answer:?}", path.escape_ascii())),
    }
}

/// A list with one slot more than there are answers, and with one less.
fn compare_list(name: &str, ask: List, room: &Room, path: &[u8], due: &[u32]) -> Result<(), String> {
    let mut list = vec![7; due.len() + 1];
    let answer = ask(room.words(), room.bytes(), path, &mut list);
    if answer != (0, due.len() as u32) || list[..due.len()] != *due || list[due.len()] != 7 {
        return Err(format!("{name} of {} gives {answer:?}", path.escape_ascii()));
    }
    if !due.is_empty() {
        let mut short = vec![7; due.len() - 1];
        let answer = ask(room.words(), room.bytes(), path, &mut short);
        if answer != (10, due.len() as u32) || short.iter().any(|slot| *slot != 7) {
            return Err(format!("{name} without room gives {answer:?}"));
        }
    }
    Ok(())
}
