//! Logs written by hand, each with the answer that 01's words give.

use super::{Counts, asked::Asked, layout::Log};
use crate::{by_01::row_8, library::Queries, output::RECORD, random::Random};

/// A log: what it shows, how many records it has, its words that are not zero (record, word, value), its bytes,
/// and the record that row 8 returns, none where the log keeps the rules.
struct Known {
    about: &'static str,
    records: usize,
    words: &'static [(usize, usize, u32)],
    bytes: &'static [u8],
    due: Option<u32>,
}

const KNOWN: [Known; 5] = [
    Known {
        about: "a deleted property alone, and a record that no link leads to",
        records: 3,
        words: &[(0, 1, 2), (1, 0, 16), (2, 0, 4), (2, 3, 2)],
        bytes: b"/p",
        due: None,
    },
    Known {
        about: "a deleted property's child word leads to a lower record",
        records: 3,
        words: &[(0, 1, 2), (1, 0, 16), (2, 0, 4), (2, 3, 2), (2, 6, 1)],
        bytes: b"/p",
        due: Some(1),
    },
    Known {
        about: "a deleted property's child word leads to a higher record",
        records: 3,
        words: &[(0, 1, 1), (1, 0, 4), (1, 3, 2), (1, 6, 2), (2, 0, 16)],
        bytes: b"/p",
        due: Some(1),
    },
    Known {
        about: "a label's child word leads to a label, which fits nowhere there",
        records: 4,
        words: &[(0, 1, 3), (1, 0, 7), (2, 0, 7), (2, 6, 1), (3, 0, 1), (3, 3, 2), (3, 6, 2)],
        bytes: b"/p",
        due: Some(1),
    },
    Known {
        about: "a kind that is none has a child word, which leads to a string with another behind it",
        records: 4,
        words: &[(0, 1, 3), (1, 0, 8), (2, 0, 8), (2, 1, 1), (3, 0, 16), (3, 6, 2)],
        bytes: b"",
        due: Some(1),
    },
];

/// Compares 01's rule and a side with the known answers: the differences.
pub fn compare(side: &Queries, counts: &mut Counts) -> Vec<String> {
    let fault = |known: &Known| Some(format!("{}: {}", known.about, known.compare(side, counts).err()?));
    KNOWN.iter().filter_map(fault).collect()
}

impl Known {
    fn log(&self) -> Log {
        let mut words = vec![0; self.records * RECORD];
        for (record, word, value) in self.words {
            words[record * RECORD + word] = *value;
        }
        Log { words: words.into(), bytes: self.bytes.into() }
    }

    fn compare(&self, side: &Queries, counts: &mut Counts) -> Result<(), String> {
        let (log, random) = (self.log(), &mut Random::new(0));
        let refusal = row_8::refusal(&log.words, &log.bytes);
        if refusal.allowed() != Vec::from_iter(self.due) {
            return Err(format!("due {:?}, by 01's rule {refusal:?}", self.due));
        }
        let mut asked = Asked::new(side, &log, random);
        let result = if self.due.is_some() { asked.broken(&refusal) } else { asked.sound(2) };
        counts.logs += 1;
        counts.refused += u64::from(self.due.is_some());
        counts.calls += asked.calls;
        result
    }
}
