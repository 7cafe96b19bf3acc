//! 01's seven wrong lowerings, faults of octal numbers, and faults in the rows.

use super::{By, Fault, lower};
use crate::{
    by_01::rows::{self, Clause},
    octal::is_octal,
    records::{MOST_RECORDS, MOST_TEXT, RECORD, Records},
    tree,
};

pub static FAULTS: [Fault; 20] = [
    ("only the first top item is lowered", By::Rust, first_item),
    ("an empty log for all input", By::Rust, |records, words, bytes| {
        fixed(records, words, bytes, &[[0; RECORD]])
    }),
    ("one fixed log", By::Rust, |records, words, bytes| {
        fixed(records, words, bytes, &[[0, 0, 1, 0, 0, 0, 0, 0], [3, 0, 0, 0, 0, 1, 0, 9]])
    }),
    ("untouched buffers called lowered", By::Rust, |_, _, _| (0, 0)),
    ("a wrong count of records", By::Rust, |records, words, bytes| counted(records, words, bytes, 0)),
    ("a wrong count of bytes", By::Rust, |records, words, bytes| counted(records, words, bytes, 5)),
    ("7 before anything is lowered", By::Rust, |records, words, bytes| {
        if words.len() / 2 < 2 * records.words.len() {
            words.fill(0);
            bytes.fill(0);
            return (7, 0);
        }
        lower(records, words, bytes)
    }),
    ("refusal of all", By::Rust, |_, _, _| (1, 0)),
    ("a leading 0 still means base 10", By::Rust, |records, words, bytes| {
        octal_cut(records, words, bytes, |text| text.bytes().take_while(|byte| *byte == b'0').count())
    }),
    ("two bytes of an octal text are dropped as a prefix", By::Rust, |records, words, bytes| {
        octal_cut(records, words, bytes, |_| 2)
    }),
    ("row 1: 2,048 records are too many", By::Rows, |records, words, bytes| {
        let most = records.words.len() == MOST_RECORDS * RECORD;
        if most { (1, 0) } else { lower(records, words, bytes) }
    }),
    ("row 1: 65,536 bytes are too many", By::Rows, |records, words, bytes| {
        if records.text.len() == MOST_TEXT { (1, 0) } else { lower(records, words, bytes) }
    }),
    ("row 2 returns the next record", By::Rows, |records, words, bytes| match lower(records, words, bytes) {
        (2, record) => (2, record + 1),
        answer => answer,
    }),
    ("row 4 looks at records that nothing links to", By::Rows, unreached),
    ("row 4: a surrogate passes", By::Rows, |records, words, bytes| {
        passed(records, words, bytes, |clause| clause == Clause::Surrogate)
    }),
    ("row 5: a name reference with a slash passes", By::Rows, |records, words, bytes| {
        passed(records, words, bytes, |clause| clause == Clause::ReferenceSlash)
    }),
    ("row 6: 64 links are too many", By::Rows, links_64),
    ("rows 1 to 6 clear the buffers", By::Rows, |records, words, bytes| {
        let answer = lower(records, words, bytes);
        if (1..7).contains(&answer.0) {
            words.fill(0);
        }
        answer
    }),
    ("row 7 leaves a byte", By::Rows, |records, words, bytes| {
        let answer = lower(records, words, bytes);
        if let ((7, _), Some(last)) = (answer, bytes.last_mut()) {
            *last = 1;
        }
        answer
    }),
    ("row 7 with just enough room", By::Rows, |records, words, bytes| {
        let answer = lower(records, words, bytes);
        if answer.0 == 0 && words[0] as usize == words.len() / 16 {
            words.fill(0);
            bytes.fill(0);
            return (7, 0);
        }
        answer
    }),
];

/// Lowers another description where this one is accepted.
fn fixed(records: &Records, words: &mut [u32], bytes: &mut [u8], other: &[[u32; RECORD]]) -> (u32, u32) {
    match lower(records, words, bytes) {
        (0, 0) => {
            lower(&Records { words: other.concat(), text: Vec::new(), ..records.clone() }, words, bytes)
        }
        answer => answer,
    }
}

/// Lowers with so many bytes less in front of each octal text, the last byte kept.
fn octal_cut(records: &Records, words: &mut [u32], bytes: &mut [u8], cut: fn(&str) -> usize) -> (u32, u32) {
    let mut other = records.clone();
    if rows::refusal(records).is_none() {
        let numbers = other
            .words
            .chunks_mut(RECORD)
            .filter(|record| matches!(record[0], tree::NUMBER | tree::CELL_LIST));
        for record in numbers {
            let text = &records.text[record[3] as usize..][..record[4] as usize];
            if let Some(text) = std::str::from_utf8(text).ok().filter(|text| is_octal(text)) {
                let less = cut(text).min(text.len() - 1) as u32;
                record[3] += less;
                record[4] -= less;
            }
        }
    }
    lower(&other, words, bytes)
}

fn first_item(records: &Records, words: &mut [u32], bytes: &mut [u8]) -> (u32, u32) {
    let mut records = records.clone();
    if rows::refusal(&records).is_none() && records.words[2] != 0 {
        let first = records.words[2] as usize;
        records.words[first * RECORD + 1] = 0;
    }
    lower(&records, words, bytes)
}

/// One too many in a word of record 0.
fn counted(records: &Records, words: &mut [u32], bytes: &mut [u8], word: usize) -> (u32, u32) {
    let answer = lower(records, words, bytes);
    if answer.0 == 0 {
        words[word] += 1;
    }
    answer
}

/// Accepts what is refused by a clause.
fn passed(records: &Records, words: &mut [u32], bytes: &mut [u8], by: fn(Clause) -> bool) -> (u32, u32) {
    match rows::refused(records) {
        Some(refused) if refused.clauses.iter().copied().any(by) => (0, 0),
        _ => lower(records, words, bytes),
    }
}

fn unreached(records: &Records, words: &mut [u32], bytes: &mut [u8]) -> (u32, u32) {
    let answer = lower(records, words, bytes);
    let turned =
        records.words.chunks(RECORD).position(|record| record.len() == RECORD && record[7] < record[6]);
    match (answer.0, turned) {
        (0 | 7, Some(record)) => (4, record as u32),
        _ => answer,
    }
}

fn links_64(records: &Records, words: &mut [u32], bytes: &mut [u8]) -> (u32, u32) {
    if rows::refusal(records).is_some() {
        return lower(records, words, bytes);
    }
    let all: Vec<&[u32]> = records.words.chunks(RECORD).collect();
    let reached = rows::reached(&all);
    match reached.iter().position(|reached| reached.as_ref().is_some_and(|reached| reached.links == 64)) {
        Some(record) => (6, record as u32),
        None => lower(records, words, bytes),
    }
}
