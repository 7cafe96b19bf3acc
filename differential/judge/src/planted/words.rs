//! Faults in what is written: single words and bytes, texts, chains.

use super::{By, Fault, lower};
use crate::{output::RECORD, records::Records};

pub static FAULTS: [Fault; 15] = [
    ("a word behind the log is not zero", By::Rust, |records, words, bytes| {
        changed(records, words, bytes, |words, _| {
            let behind = words[0] as usize * RECORD;
            words.get_mut(behind).into_iter().for_each(|word| *word = 1);
        })
    }),
    ("a byte behind the texts is not zero", By::Rust, |records, words, bytes| {
        changed(records, words, bytes, |words, bytes| {
            bytes.get_mut(words[5] as usize).into_iter().for_each(|byte| *byte = 1);
        })
    }),
    ("the last words of a record are not zero", By::Rust, |records, words, bytes| {
        each(records, words, bytes, |_| true, |record| record[15] = record[0])
    }),
    ("a text that two records share", By::Rust, |records, words, bytes| {
        changed(records, words, bytes, share)
    }),
    ("an empty text that does not start at 0", By::Rust, |records, words, bytes| {
        each(records, words, bytes, |record| record[0] == 15 && record[3] == 0, |record| record[2] = 1)
    }),
    ("a span that ends one later", By::Rust, |records, words, bytes| {
        each(records, words, bytes, |record| record[0] == 1, |record| record[10] = record[10].wrapping_add(1))
    }),
    ("the name span of a property", By::Rust, |records, words, bytes| {
        each(records, words, bytes, |record| record[0] == 2, |record| record.copy_within(9..11, 11))
    }),
    ("the earlier binding of code 20", By::Rust, |records, words, bytes| {
        each(
            records,
            words,
            bytes,
            |record| record[0] == 15 && record[7] == 20,
            |record| {
                record[11..13].fill(0);
            },
        )
    }),
    ("the high word of a number", By::Rust, |records, words, bytes| {
        each(records, words, bytes, |record| record[0] == 11, |record| record[8] = 0)
    }),
    ("the omit mark", By::Rust, |records, words, bytes| {
        each(records, words, bytes, |record| record[0] == 1, |record| record[7] = 0)
    }),
    ("the form of a reference", By::Rust, |records, words, bytes| {
        each(records, words, bytes, |record| record[0] == 12 && record[7] == 2, |record| record[7] = 1)
    }),
    ("the first definition is left out", By::Rust, |records, words, bytes| {
        changed(records, words, bytes, |words, _| skip(words, 1))
    }),
    ("the first binding is left out", By::Rust, |records, words, bytes| {
        changed(records, words, bytes, |words, _| skip(words, 3))
    }),
    ("the post checks' diagnostics behind lowering's", By::Rust, |records, words, bytes| {
        changed(records, words, bytes, join_diagnostics)
    }),
    ("the two chains of diagnostics exchanged", By::Rust, |records, words, bytes| {
        changed(records, words, bytes, |words, _| words.swap(4, 6))
    }),
];

/// Changes what was written, where a description was lowered.
fn changed(
    records: &Records,
    words: &mut [u32],
    bytes: &mut [u8],
    change: fn(&mut [u32], &mut [u8]),
) -> (u32, u32) {
    let answer = lower(records, words, bytes);
    if answer.0 == 0 {
        change(words, bytes);
    }
    answer
}

/// Changes each record of a sort.
fn each(
    records: &Records,
    words: &mut [u32],
    bytes: &mut [u8],
    is: fn(&[u32]) -> bool,
    change: fn(&mut [u32]),
) -> (u32, u32) {
    let answer = lower(records, words, bytes);
    if answer.0 == 0 {
        words.chunks_exact_mut(RECORD).skip(1).filter(|record| is(record)).for_each(change);
    }
    answer
}

/// Leaves out the first record of a chain of record 0.
fn skip(words: &mut [u32], head: usize) {
    let first = words[head] as usize * RECORD;
    if first != 0 {
        words[head] = words[first + 1];
        words[first..first + RECORD].fill(0);
    }
}

/// Gives a record the text of an earlier one, where both are equal.
fn share(words: &mut [u32], bytes: &mut [u8]) {
    let count = words.len() / RECORD;
    let text = |words: &[u32], record: usize| {
        (words[record * RECORD + 2] as usize, words[record * RECORD + 3] as usize)
    };
    for later in 1..count {
        for earlier in 1..later {
            let ((one, length), (other, same)) = (text(words, earlier), text(words, later));
            if length > 0 && length == same && bytes[one..one + length] == bytes[other..other + length] {
                bytes[other..other + length].fill(0);
                words[later * RECORD + 2] = one as u32;
                return;
            }
        }
    }
}

fn join_diagnostics(words: &mut [u32], _: &mut [u8]) {
    let mut last = 4;
    while words[last] != 0 {
        last = words[last] as usize * RECORD + 1;
    }
    words[last] = words[6];
    words[6] = 0;
}
