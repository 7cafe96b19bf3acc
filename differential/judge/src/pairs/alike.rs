//! Two written logs compared as 01's "alike" has it: word by word, texts by their bytes, chains in place
//! of links, lists by the records that they name.

use std::collections::BTreeSet;

use crate::{
    answer::Text,
    by_01::paths::{is_path, under},
    library::{List, Queries},
    output::RECORD,
};

/// What a run left.
pub struct Run {
    pub words: Vec<u32>,
    pub bytes: Vec<u8>,
}

/// The parts that demand 3 names.
pub const PARTS: [&str; 6] = [
    "a live list",
    "the bindings",
    "the extensions",
    "lowering's diagnostics",
    "the post checks' diagnostics",
    "a history",
];

/// The parts in which two runs are not alike. Live lists are asked for each base, histories for each
/// path not at or under the new one.
pub fn differences(
    side: &Queries,
    a: &Run,
    b: &Run,
    new: &[u8],
    asked: &BTreeSet<Text>,
) -> Result<Vec<&'static str>, String> {
    let chain_alike = |word: usize| chains_alike(a, a.words[word], b, b.words[word]);
    let lists_alike = |ask: List, path: &Text| -> Result<bool, String> {
        let (of_a, of_b) = (a.list(ask, path)?, b.list(ask, path)?);
        let pairs = || of_a.iter().zip(&of_b);
        Ok(of_a.len() == of_b.len() && pairs().all(|(of_a, of_b)| alike(a, *of_a, b, *of_b)))
    };
    let (mut lives, mut histories) = (true, true);
    for path in asked {
        lives = lives && lists_alike(side.live, path)?;
        histories = histories && (under(path, new) || lists_alike(side.history, path)?);
    }
    let same = [lives, chain_alike(3), chain_alike(2), chain_alike(4), chain_alike(6), histories];
    Ok(PARTS.into_iter().zip(same).filter(|(_, same)| !same).map(|(part, _)| part).collect())
}

impl Run {
    fn record(&self, number: u32) -> &[u32] {
        &self.words[number as usize * RECORD..][..RECORD]
    }

    fn chain(&self, first: u32) -> Vec<u32> {
        let next = |number: &u32| Some(self.record(*number)[1]).filter(|next| *next != 0);
        std::iter::successors(Some(first).filter(|first| *first != 0), next).collect()
    }

    fn text(&self, record: &[u32], word: usize) -> &[u8] {
        &self.bytes[record[word] as usize..][..record[word + 1] as usize]
    }

    /// What a query lists.
    fn list(&self, ask: List, path: &[u8]) -> Result<Vec<u32>, String> {
        let mut list = vec![0; self.words.len() / RECORD];
        match ask(&self.words, &self.bytes, path, &mut list) {
            (0, count) => {
                list.truncate(count as usize);
                Ok(list)
            }
            answer => Err(format!("a query of {} gives {answer:?}", path.escape_ascii())),
        }
    }

    /// The paths of the main log's definitions.
    pub fn paths(&self) -> Vec<Text> {
        let numbers = self.chain(self.words[1]);
        numbers.iter().map(|number| self.text(self.record(*number), 2).to_vec()).collect()
    }
}

/// "", "/", the paths of two logs and the new one, those above them and near them; at most so many of
/// the others.
pub fn asked(a: &Run, b: &Run, new: &[u8], most: usize) -> BTreeSet<Text> {
    let mut asked = BTreeSet::from([Text::new(), b"/".to_vec(), new.to_vec(), [new, b"/a"].concat()]);
    let both: BTreeSet<Text> = a.paths().into_iter().chain(b.paths()).collect();
    for path in &both {
        let above = path.iter().rposition(|byte| *byte == b'/').map_or(0, |slash| slash.max(1));
        let shorter = &path[..path.len().saturating_sub(1)];
        let near = [&path[..], &path[..above], shorter, &[path, &b"b"[..]].concat()].map(<[u8]>::to_vec);
        if asked.len() < most {
            asked.extend(near.into_iter().filter(|path| is_path(path)));
        }
    }
    asked
}

fn chains_alike(a: &Run, of_a: u32, b: &Run, of_b: u32) -> bool {
    let (of_a, of_b) = (a.chain(of_a), b.chain(of_b));
    of_a.len() == of_b.len() && of_a.iter().zip(&of_b).all(|(of_a, of_b)| alike(a, *of_a, b, *of_b))
}

/// "equal in every word but next, where a text's bytes are compared in place of its start, and the
/// chain that a child or body link leads to, likewise, in place of the link"
fn alike(a: &Run, of_a: u32, b: &Run, of_b: u32) -> bool {
    let (one, other) = (a.record(of_a), b.record(of_b));
    let body = one[0] == 13;
    let elsewhere = |word: usize| matches!(word, 1 | 2 | 4 | 6) || body && word == 8;
    (0..RECORD).all(|word| one[word] == other[word] || elsewhere(word))
        && [2, 4].into_iter().all(|word| a.text(one, word) == b.text(other, word))
        && chains_alike(a, one[6], b, other[6])
        && (!body || chains_alike(a, one[8], b, other[8]))
}
