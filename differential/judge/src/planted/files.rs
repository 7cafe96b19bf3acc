//! Faults of the files' numbers and of their starts (02, request 3).

use super::{By, Fault, lower, slips::rewritten};
use crate::{
    by_01::rows::{self, BAD_FILES},
    by_02::files::{MOST_FILES, faults, file_of},
    output::RECORD,
    records::{self, ONE_FILE, Records},
    tree,
};

pub static FAULTS: [Fault; 25] = [
    ("files: the first start not below", By::Files, |records, words, bytes| {
        counted(records, words, bytes, |starts, place| {
            starts.iter().position(|start| *start >= place).unwrap_or(starts.len() - 1)
        })
    }),
    ("files: a start equal to the place is above it", By::Files, |records, words, bytes| {
        counted(records, words, bytes, |starts, place| {
            starts.iter().rposition(|start| *start < place).unwrap_or(0)
        })
    }),
    ("files: the last start is left out", By::Files, |records, words, bytes| {
        counted(records, words, bytes, |starts, place| {
            (file_of(starts, place) as usize).min(starts.len().saturating_sub(2))
        })
    }),
    ("files: the first start that is not 0 is left out", By::Files, |records, words, bytes| {
        counted(records, words, bytes, |starts, place| (file_of(starts, place) as usize).saturating_sub(1))
    }),
    ("files: numbers from 1", By::Files, |records, words, bytes| {
        each(records, words, bytes, |_, record, _| record[13] += 1)
    }),
    ("files: by the span's end", By::Files, |records, words, bytes| {
        each(records, words, bytes, |_, record, starts| record[13] = file_of(starts, record[10]))
    }),
    ("files: a name's by its span's end", By::Files, |records, words, bytes| {
        each(records, words, bytes, |_, record, starts| record[14] = file_of(starts, record[12]))
    }),
    ("files: words 13 and 14 exchanged", By::Files, |records, words, bytes| {
        each(records, words, bytes, |_, record, _| record.swap(13, 14))
    }),
    ("files: word 14 by the span", By::Files, |records, words, bytes| {
        of_chain(records, words, bytes, Chain::Log, |record| record[14] = record[13])
    }),
    ("files: word 14 of a binding", By::Files, |records, words, bytes| {
        of_chain(records, words, bytes, Chain::Bindings, |record| record[14] = record[13])
    }),
    ("files: no word 14 for code 20", By::Files, |records, words, bytes| {
        each(records, words, bytes, |_, record, _| {
            if (record[0], record[7]) == (15, 20) {
                record[14] = 0;
            }
        })
    }),
    ("files: none in bodies", By::Files, |records, words, bytes| {
        of_chain(records, words, bytes, Chain::Bodies, |record| record[13..15].fill(0))
    }),
    ("files: none of bindings", By::Files, |records, words, bytes| {
        of_chain(records, words, bytes, Chain::Bindings, |record| record[13] = 0)
    }),
    ("files: none of extensions", By::Files, |records, words, bytes| {
        of_chain(records, words, bytes, Chain::Extensions, |record| record[13..15].fill(0))
    }),
    ("files: none of lowering's diagnostics", By::Files, |records, words, bytes| {
        of_chain(records, words, bytes, Chain::Lowering, |record| record[13] = 0)
    }),
    ("files: none of the post checks' diagnostics", By::Files, |records, words, bytes| {
        of_chain(records, words, bytes, Chain::Post, |record| record[13] = 0)
    }),
    ("files: in word 15 too", By::Files, |records, words, bytes| {
        each(records, words, bytes, |_, record, _| record[15] = record[13])
    }),
    (
        "files: the log of more than one file in other records",
        By::Files,
        |records, words, bytes| match records.starts.len() {
            1 => lower(records, words, bytes),
            _ => rewritten(records, words, bytes, |_, _| {}),
        },
    ),
    ("pairs: one file for every other deletion", By::Pairs, |records, words, bytes| {
        let is_deletion = |record: &&[u32]| record[0] == tree::DIRECTIVE && record[5] == 4;
        let odd = records.words.chunks(records::RECORD).filter(is_deletion).count() % 2 == 1;
        if odd { told(records, words, bytes, &ONE_FILE) } else { lower(records, words, bytes) }
    }),
    ("files: 14 before row 6", By::Rows, |records, words, bytes| match rows::refusal(records) {
        Some((6, _)) if !faults(&records.starts).is_empty() => (BAD_FILES, 0),
        _ => lower(records, words, bytes),
    }),
    ("files: 14 behind row 7", By::Rows, |records, words, bytes| {
        match told(records, words, bytes, &ONE_FILE) {
            (0, 0) => lower(records, words, bytes),
            answer => answer,
        }
    }),
    ("files: a list of 17 is taken", By::Rows, |records, words, bytes| {
        let most = if records.starts.len() == MOST_FILES + 1 { MOST_FILES } else { records.starts.len() };
        told(records, words, bytes, &records.starts[..most])
    }),
    ("files: a list that does not begin with 0 is taken", By::Rows, |records, words, bytes| {
        let mut starts = records.starts.clone();
        starts.iter_mut().take(1).for_each(|start| *start = 0);
        told(records, words, bytes, &starts)
    }),
    ("files: equal starts are taken", By::Rows, |records, words, bytes| {
        let mut starts = records.starts.clone();
        starts.dedup();
        told(records, words, bytes, &starts)
    }),
    ("files: 14 writes into the buffers", By::Rows, |records, words, bytes| {
        let answer = lower(records, words, bytes);
        if answer.0 == BAD_FILES {
            words.iter_mut().skip(13).step_by(RECORD).for_each(|word| *word = 0);
        }
        answer
    }),
];

/// Lowers with other starts.
fn told(records: &Records, words: &mut [u32], bytes: &mut [u8], starts: &[u32]) -> (u32, u32) {
    lower(&Records { starts: starts.to_vec(), ..records.clone() }, words, bytes)
}

/// The chains of a log.
#[derive(Clone, Copy, PartialEq, Eq)]
enum Chain {
    Log,
    Extensions,
    Bodies,
    Bindings,
    Lowering,
    Post,
}

/// The records of a chain, by their places.
fn places(words: &[u32], first: u32) -> Vec<usize> {
    let place = |number: u32| Some(number as usize * RECORD).filter(|place| *place != 0);
    std::iter::successors(place(first), |at| place(words[at + 1])).collect()
}

/// Changes each record that has files, where a description was lowered.
fn each(
    records: &Records,
    words: &mut [u32],
    bytes: &mut [u8],
    change: impl Fn(Chain, &mut [u32], &[u32]),
) -> (u32, u32) {
    let answer = lower(records, words, bytes);
    if answer.0 != 0 {
        return answer;
    }
    let heads = [
        (Chain::Log, 1),
        (Chain::Extensions, 2),
        (Chain::Bindings, 3),
        (Chain::Lowering, 4),
        (Chain::Post, 6),
    ];
    for (chain, head) in heads {
        for at in places(words, words[head]) {
            let bodies = if chain == Chain::Extensions { places(words, words[at + 8]) } else { Vec::new() };
            for body in bodies {
                change(Chain::Bodies, &mut words[body..body + RECORD], &records.starts);
            }
            change(chain, &mut words[at..at + RECORD], &records.starts);
        }
    }
    answer
}

/// Changes each record of a chain.
fn of_chain(
    records: &Records,
    words: &mut [u32],
    bytes: &mut [u8],
    of: Chain,
    change: fn(&mut [u32]),
) -> (u32, u32) {
    each(records, words, bytes, |chain, record, _| {
        if chain == of {
            change(record);
        }
    })
}

/// Counts files in another way.
fn counted(
    records: &Records,
    words: &mut [u32],
    bytes: &mut [u8],
    file: fn(&[u32], u32) -> usize,
) -> (u32, u32) {
    each(records, words, bytes, |_, record, starts| record[13] = file(starts, record[9]) as u32)
}
