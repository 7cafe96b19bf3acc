//! A description in hand, whose words and text are changed.

use crate::{
    by_01::rows::{self, Link},
    random::Random,
    records::{RECORD, Records},
    tree::{Place, Rec},
};

/// A record that is reached from record 0.
#[derive(Clone, Copy)]
pub struct Known {
    pub number: usize,
    pub kind: u32,
    pub place: Place,
    /// W of a reference.
    pub w: u32,
}

/// A description with the records that are reached, and those that nothing links to, before any change.
pub struct Hand {
    pub records: Records,
    pub random: Random,
    known: Vec<Known>,
    loose: Vec<usize>,
}

/// The words of a record that link, by their names.
const LINKS: [(Link, usize); 4] = [(Link::Next, 1), (Link::Child, 2), (Link::Items, 5), (Link::Values, 5)];

impl Hand {
    /// Takes a description that rows 1 to 6 accept.
    pub fn new(records: Records, random: Random) -> Self {
        let all: Vec<&[u32]> = records.words.chunks(RECORD).collect();
        let reached = rows::reached(&all);
        let known = (1..all.len()).filter_map(|number| {
            let place = reached[number].as_ref()?.place?;
            Some(Known { number, kind: all[number][0], place, w: all[number][5] })
        });
        let known = known.collect();
        let loose = (1..all.len()).filter(|number| reached[*number].is_none()).collect();
        Self { records, random, known, loose }
    }

    /// How many records there are, the last perhaps cut off.
    pub fn count(&self) -> usize {
        self.records.words.len() / RECORD
    }

    /// A word of a record, if it is there.
    pub fn set(&mut self, number: usize, word: usize, value: u32) -> bool {
        self.records.words.get_mut(number * RECORD + word).map(|there| *there = value).is_some()
    }

    fn get(&self, number: usize, word: usize) -> u32 {
        self.records.words.get(number * RECORD + word).copied().unwrap_or(0)
    }

    /// Some reached record that fits.
    pub fn some(&mut self, fits: impl Fn(&Known) -> bool) -> Option<Known> {
        let fitting: Vec<Known> = self.known.iter().copied().filter(fits).collect();
        if fitting.is_empty() { None } else { Some(self.random.pick(&fitting)) }
    }

    /// Sets a word of some reached record that fits.
    pub fn set_some(&mut self, fits: impl Fn(&Known) -> bool, word: usize, value: u32) -> bool {
        self.some(fits).is_some_and(|known| self.set(known.number, word, value))
    }

    /// Any record but 0: mostly one that is reached.
    pub fn any(&mut self) -> Option<usize> {
        if self.random.once_in(4) {
            return self.loose();
        }
        self.some(|_| true).map(|known| known.number)
    }

    /// A record that nothing links to; one is added if there is none.
    pub fn loose(&mut self) -> Option<usize> {
        if self.loose.is_empty() {
            let kind = 1 + self.random.below(20) as u32;
            let number = self.add(kind);
            self.loose.push(number);
        }
        Some(self.random.pick(&self.loose))
    }

    /// Adds a record of a kind at the end that nothing links to.
    pub fn add(&mut self, kind: u32) -> usize {
        let number = self.count();
        self.records.words.truncate(number * RECORD);
        self.records.words.extend([kind, 0, 0, 0, 0, 0, 0, 0]);
        number
    }

    /// Some record with the word of one of its links, which may be zero: each link as often.
    pub fn link(&mut self) -> Option<(usize, usize)> {
        let (link, word) = self.random.pick(&LINKS);
        let number = match link {
            Link::Items => self.some(|known| known.kind == 1)?.number,
            Link::Values => self.some(|known| known.kind == 2)?.number,
            Link::Child if self.random.once_in(8) => 0,
            _ => self.any()?,
        };
        Some((number, word))
    }

    /// Some link to another record: the linking one, and the one linked.
    pub fn linked(&mut self) -> Option<(usize, usize)> {
        let known = self.some(|_| true)?;
        let linking = (0..known.number).find(|number| {
            let words = self.records.words.get(number * RECORD..(number + 1) * RECORD);
            words.is_some_and(|words| rows::links(words).iter().any(|(_, to)| *to == known.number))
        });
        Some((linking?, known.number))
    }

    /// Gives a record a text of its own, behind the others.
    pub fn give_text(&mut self, number: usize, text: &[u8]) -> bool {
        let start = self.records.text.len() as u32;
        self.records.text.extend_from_slice(text);
        self.set(number, 3, start) && self.set(number, 4, text.len() as u32)
    }

    /// Adds a chain of records at the end; the number of its first.
    pub fn append(&mut self, chain: &[Rec]) -> u32 {
        let mut first = 0;
        let mut before = None;
        for rec in chain {
            let number = self.add(rec.kind);
            self.give_text(number, &rec.text);
            if before.is_none() {
                first = number as u32;
            }
            before.map(|before| self.set(before, 1, number as u32));
            before = Some(number);
            let child = self.append(&rec.child);
            self.set(number, 2, child);
            let more = if Place::of_more(rec.kind).is_some() { self.append(&rec.more) } else { rec.w };
            self.set(number, 5, more);
        }
        first
    }

    /// Puts records behind the last top item.
    pub fn append_top(&mut self, chain: &[Rec]) -> bool {
        let (mut last, mut word) = (0, 2);
        // A chain that was changed before may lead anywhere; then nothing is put behind it.
        for _ in 0..self.count() {
            let next = self.get(last, word) as usize;
            if next == 0 {
                let first = self.append(chain);
                return self.set(last, word, first);
            }
            (last, word) = (next, 1);
        }
        false
    }
}
