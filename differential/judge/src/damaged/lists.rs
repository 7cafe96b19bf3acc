//! Bad lists of files' starts (02, request 3): 14, behind rows 1 to 6 and before row 7.

use super::{Counts, compare_refused};
use crate::{
    by_01::{
        self,
        rows::{BAD_FILES, Clause, NO_LEVEL, Refused},
    },
    by_02::files::{Bad, MOST_FILES},
    coverage::Coverage,
    library::Library,
    output::RECORD,
    random::Random,
    records::{self, Records},
    room::Room,
};

/// A sort of bad lists, and one of them.
type Sort = (&'static str, fn(&mut Random) -> Vec<u32>);

const SORTS: [Sort; 11] = [
    ("no start", |_| Vec::new()),
    ("17 starts", |random| rising(MOST_FILES + 1, random)),
    ("more than 17 starts", |random| {
        let more = random.pick(&[1, 2, 15, 16, 240, 5000]);
        rising(MOST_FILES + 1 + more, random)
    }),
    ("a first start that is not 0", |random| {
        let first = random.pick(&[1, 2, 1 << 31, u32::MAX - 16]);
        rising(some(random), random).into_iter().map(|start| start.saturating_add(first)).collect()
    }),
    ("two equal starts in front", |random| equal(random, |_, _| 0)),
    ("two equal starts in the middle", |random| equal(random, |last, random| 1 + random.below(last - 1))),
    ("two equal starts at the end", |random| equal(random, |last, _| last)),
    ("a start below the one before it", |random| {
        let mut starts = rising(3 + random.below(MOST_FILES - 3), random);
        let place = 1 + random.below(starts.len() - 2);
        starts.swap(place, place + 1);
        starts
    }),
    ("0 at the end", |random| [rising(some(random), random), vec![0]].concat()),
    ("a list that falls", |random| {
        rising(2 + random.below(MOST_FILES - 1), random).into_iter().rev().collect()
    }),
    ("2^32 - 1 and then 0", |_| vec![0, u32::MAX, 0]),
];

/// So many starts that leave room for one more.
fn some(random: &mut Random) -> usize {
    1 + random.below(MOST_FILES - 1)
}

/// A list of so many starts that rises from 0.
fn rising(count: usize, random: &mut Random) -> Vec<u32> {
    let most = random.pick(&[1, 3, 9]);
    let mut at = 0;
    let next = |_| {
        let start = at;
        at += 1 + random.below(most) as u32;
        start
    };
    (0..count).map(next).collect()
}

/// A list in which the start at a place stands twice; the place is told the last one.
fn equal(random: &mut Random, place: fn(usize, &mut Random) -> usize) -> Vec<u32> {
    let mut starts = rising(3 + random.below(MOST_FILES - 3), random);
    let place = place(starts.len() - 1, random);
    starts.insert(place, starts[place]);
    starts
}

const ALONE: &str = "14 of a description without a change";
const NO_FAULT: &str = "14 with a change that is no fault";
const SHORT: &str = "14 before row 7";
const ROOM: &str = "14 with just enough room";
const MOST: &str = "accepted with 16 starts";

fn sort_of(name: &str) -> String {
    format!("14 for {name}")
}

/// A row that refuses where the list is bad too.
fn before(row: u32) -> String {
    if row == NO_LEVEL { "18 before 14".to_owned() } else { format!("row {row} before 14") }
}

/// The clauses of a bad list.
pub fn clauses() -> impl Iterator<Item = Clause> {
    [Bad::Empty, Bad::Over, Bad::First, Bad::NotRising].into_iter().map(Clause::Files)
}

/// What is to come up.
pub fn wanted() -> impl Iterator<Item = String> {
    let once = [ALONE, NO_FAULT, SHORT, ROOM, MOST].map(str::to_owned);
    let sorts = SORTS.iter().map(|(name, _)| sort_of(name));
    sorts.chain((1..=6).chain([NO_LEVEL]).map(before)).chain(once)
}

/// Notes a description that is accepted.
pub fn note_accepted(records: &Records, coverage: &mut Coverage) {
    coverage.add_if(MOST.to_owned(), records.starts.len() == MOST_FILES);
}

/// Compares on a description with a bad list in place of its own; whether something else was changed in it.
pub fn compare(
    side: &Library,
    records: &Records,
    is_changed: bool,
    random: &mut Random,
    counts: &mut Counts,
    coverage: &mut Coverage,
) -> Result<(), String> {
    let (name, make) = random.pick(&SORTS);
    let records = &Records { starts: make(random), ..records.clone() };
    let refused = by_01::rows::refused(records).expect("a list that is bad");
    counts.inputs += 1;
    *counts.answered.entry(refused.number).or_default() += 1;
    let of_list = |fault: String| format!("{name}: {fault}");
    compare_refused(side, records, &refused, random, coverage).map_err(of_list)?;
    if refused.number != BAD_FILES {
        coverage.add(before(refused.number), 1);
        return Ok(());
    }
    coverage.add(sort_of(name), 1);
    coverage.add((if is_changed { NO_FAULT } else { ALONE }).to_owned(), 1);
    if let [clause] = refused.clauses[..] {
        coverage.add(super::wanted::returned_for(clause), 1);
    }
    in_rooms(side, records, &refused, random, coverage).map_err(of_list)
}

/// 14 in just enough room, and where row 7 would refuse.
fn in_rooms(
    side: &Library,
    records: &Records,
    refused: &Refused,
    random: &mut Random,
    coverage: &mut Coverage,
) -> Result<(), String> {
    let made = by_01::lower::lower(&records::read(records), records.level);
    let (words, bytes) = (made.records as usize * RECORD, made.bytes as usize);
    for (what, words) in [(ROOM, words), (SHORT, words - 1 - random.below(RECORD))] {
        let mut room = Room::new(words, bytes);
        let answer = room.lower(side.lower, records)?;
        if answer != (refused.number, refused.returned) {
            return Err(format!("{answer:?}, {what} due"));
        }
        if !room.is_left() {
            return Err(format!("{what} leaves not all"));
        }
        coverage.add(what.to_owned(), 1);
    }
    Ok(())
}
