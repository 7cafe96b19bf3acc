//! Damaged descriptions and descriptions at the limits: 18, rows 1 to 6, 14 and row 7 against a side. What is due is said
//! by 01's table (`by_01::rows`) and, of what is accepted, by 01's sentences.

mod damage;
mod deep;
mod hand;
pub mod limits;
mod lists;
pub mod tables;
mod wanted;

pub use wanted::wanted;

use std::collections::BTreeMap;

use damage::DAMAGES;
use hand::Hand;

use crate::{
    by_01::{
        self,
        lower::Lowered,
        rows::{BAD_FILES, NO_LEVEL, Refused},
    },
    counts,
    coverage::Coverage,
    generate::{Size, generate, generate_short},
    library::Library,
    output::RECORD,
    random::{self, Random},
    records::{self, Records, SIGNED, UNSIGNED},
    room::Room,
    whole::{self, Due},
};

/// What a comparison counted, by the number answered.
#[derive(Default)]
pub struct Counts {
    pub inputs: u64,
    pub answered: BTreeMap<u32, u64>,
    pub different: u64,
}

impl Counts {
    /// As a part of a run.
    pub fn total(&self) -> counts::Counts {
        counts::Counts::of(self.inputs, self.different)
    }

    pub fn line(&self) -> String {
        let by = |row: u32| self.answered.get(&row).unwrap_or(&0);
        let rows: Vec<String> = (1..8).map(|row| format!("{} by row {row}", by(row))).collect();
        let (inputs, different) = (self.inputs, self.different);
        let (by_level, by_files) = (by(NO_LEVEL), by(BAD_FILES));
        format!(
            "{inputs} descriptions, refused {by_level} by 18, {}, {by_files} by 14, {different} different",
            rows.join(", ")
        )
    }
}

/// Compares a side with 01's table on as many descriptions.
pub fn compare(side: &Library, from: u64, inputs: u64, coverage: &mut Coverage) -> Counts {
    let mut counts = Counts::default();
    for seed in random::seeds(from, inputs) {
        if let Err(fault) = compare_seed(side, seed, &mut counts, coverage) {
            counts.different += 1;
            if counts.different <= 3 {
                println!("seed {seed}, {fault}");
            }
        }
    }
    counts
}

/// Compares on the description of a seed.
pub fn compare_seed(
    side: &Library,
    seed: u64,
    counts: &mut Counts,
    coverage: &mut Coverage,
) -> Result<(), String> {
    let random = &mut Random::new(seed ^ 0xda3a);
    let (records, damages) = damaged(seed, random);
    wanted::note(&damages, records.level, by_01::rows::refused(&records).as_ref(), coverage);
    let names: Vec<&str> = damages.iter().map(|place| DAMAGES[*place].name).collect();
    let result = compare_records(side, &records, random, counts, coverage);
    result.map_err(|fault| format!("{}: {fault}", names.join(", ")))?;
    compare_list(side, seed, records, &damages, counts, coverage)
}

/// Compares on the same description with a bad list of files' starts; one in four as it was before it was changed.
fn compare_list(
    side: &Library,
    seed: u64,
    records: Records,
    damages: &[usize],
    counts: &mut Counts,
    coverage: &mut Coverage,
) -> Result<(), String> {
    let random = &mut Random::new(seed ^ 0xf11e_da3a);
    if seed % 4 == 1 {
        return lists::compare(side, &generated(seed, records.level), false, random, counts, coverage);
    }
    lists::compare(side, &records, !damages.is_empty(), random, counts, coverage)
}

/// Compares on any words and text.
fn compare_records(
    side: &Library,
    records: &Records,
    random: &mut Random,
    counts: &mut Counts,
    coverage: &mut Coverage,
) -> Result<(), String> {
    counts.inputs += 1;
    match by_01::rows::refused(records) {
        Some(refused) => {
            *counts.answered.entry(refused.number).or_default() += 1;
            compare_refused(side, records, &refused, random, coverage)
        }
        None => compare_accepted(side, records, random, counts, coverage),
    }
}

/// Levels that are none.
const NO_LEVELS: [u32; 3] = [0, 3, u32::MAX];

/// The level of a description: often 2, and sometimes none.
fn level(random: &mut Random) -> u32 {
    match random.below(8) {
        0 => match random.below(4) {
            3 => 4 + random.below(u32::MAX as usize - 4) as u32,
            place => NO_LEVELS[place],
        },
        1 | 2 => UNSIGNED,
        _ => SIGNED,
    }
}

/// A generated description that is told any level, one in eight with short paths.
fn generated(seed: u64, level: u32) -> Records {
    let size = match seed % 100 {
        ..94 => Size::Small,
        94..99 => Size::Middle,
        _ => Size::Limit,
    };
    let made = if seed % 8 == 7 { generate_short } else { generate };
    let records = made(seed, size, if is_level(level) { level } else { UNSIGNED }).records;
    Records { level, ..records }
}

fn is_level(level: u32) -> bool {
    [SIGNED, UNSIGNED].contains(&level)
}

/// A generated description with one change or, often, more; which, by their places in the list. One whose level is none may
/// have no change.
fn damaged(seed: u64, random: &mut Random) -> (Records, Vec<usize>) {
    let level = level(random);
    let wanted = if is_level(level) { random.pick(&[1, 1, 1, 2, 3]) } else { random.below(4) };
    let mut hand = Hand::new(generated(seed, level), Random::new(random.next()));
    let mut made = Vec::new();
    while made.len() < wanted {
        let place = hand.random.below(DAMAGES.len());
        if (DAMAGES[place].make)(&mut hand) {
            made.push(place);
        }
    }
    hand.records.words.shrink_to_fit();
    hand.records.text.shrink_to_fit();
    (hand.records, made)
}

/// Lengths of the words and of the bytes that are lent where a description is refused.
const WORDS: [usize; 9] = [0, 0, 1, 15, 16, 17, 100, 160, 1000];
const BYTES: [usize; 6] = [0, 0, 1, 7, 100, 1000];

/// Rooms above the limits are large: they come up once in so many times.
const RARE: usize = 500;
const WORDS_ABOVE: usize = 65_537 * RECORD + 3;
const BYTES_ABOVE: usize = (1 << 24) + 5;

/// 18, rows 1 to 6 and 14: the number, what is returned, and both buffers as they were.
fn compare_refused(
    side: &Library,
    records: &Records,
    refused: &Refused,
    random: &mut Random,
    coverage: &mut Coverage,
) -> Result<(), String> {
    let (mut words, mut bytes) = (random.pick(&WORDS), random.pick(&BYTES));
    match random.below(RARE) {
        0 => words = WORDS_ABOVE,
        1 => bytes = BYTES_ABOVE,
        _ => {}
    }
    let mut note = |what: &str, holds: bool| coverage.add(format!("refused with {what}"), holds.into());
    note("no words and no bytes lent", words == 0 && bytes == 0);
    note("words that are no multiple of 16", !words.is_multiple_of(RECORD));
    note("more than 65,536 records lent", words == WORDS_ABOVE);
    note("more than 2^24 bytes lent", bytes == BYTES_ABOVE);
    let mut room = Room::new(words, bytes);
    let due = (refused.number, refused.returned);
    let answer = room.lower(side.lower, records)?;
    if answer != due {
        return Err(format!("{answer:?}, due {due:?} for {:?}", refused.clauses));
    }
    if room.is_left() { Ok(()) } else { Err(format!("row {} leaves not all", due.0)) }
}

/// Row 7, or the log that 01's sentences give.
fn compare_accepted(
    side: &Library,
    records: &Records,
    random: &mut Random,
    counts: &mut Counts,
    coverage: &mut Coverage,
) -> Result<(), String> {
    let lowered = by_01::lower::lower(&records::read(records), records.level);
    wanted::note_short(&lowered, coverage);
    lists::note_accepted(records, coverage);
    let Lowered { answer, records: made, bytes, .. } = lowered;
    let due = Due { records, answer: &answer, made: (made, bytes) };
    let (words, bytes) = (made as usize * RECORD, bytes as usize);
    let rare = random.below(RARE);
    let (what, lent) = match random.below(12) {
        _ if rare == 0 => ("lowered with more than 65,536 records lent", (WORDS_ABOVE, bytes)),
        _ if rare == 1 => ("lowered with more than 2^24 bytes lent", (words, BYTES_ABOVE)),
        0 if bytes == 0 => ("lowered with no bytes lent", (words, 0)),
        0 | 1 => ("lowered into just enough", (words, bytes)),
        2 => ("lowered with room to spare", (words + 3 * RECORD, bytes + 9)),
        3 => ("lowered into words that are no multiple of 16", (words + 1 + random.below(15), bytes)),
        4 => ("7 for no words lent", (0, random.pick(&[0, bytes, bytes + 9]))),
        5 => ("7 for fewer words than a record has", (1 + random.below(15), bytes)),
        6 if bytes > 0 => ("7 for no bytes lent", (words, 0)),
        7 | 8 if bytes > 0 => ("7 for bytes, one short", (words + random.below(2 * RECORD), bytes - 1)),
        9 if bytes > 0 => ("7 for both", (random.below(words), random.below(bytes))),
        _ => ("7 for records, one short", (words - 1 - random.below(RECORD), bytes + random.below(9))),
    };
    coverage.add(what.to_owned(), 1);
    if what.starts_with('7') {
        *counts.answered.entry(7).or_default() += 1;
        coverage.add_if(wanted::at_level_2(7), records.level == UNSIGNED);
        return whole::short(side, &due, lent.0, lent.1);
    }
    whole::lowered(side, &due, lent.0, lent.1).map(drop)
}
