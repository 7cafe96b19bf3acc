//! Damage to a log, for every clause of row 8, and changes that row 8 lets pass.

use super::layout::Log;
use crate::{by_01::row_8, output::RECORD, random::Random};

/// A change to a log: what it is called, whether it breaks an output rule, and how it is done; false
/// if the log has nothing to do it to.
pub struct Damage {
    pub name: &'static str,
    pub breaks: bool,
    pub make: fn(&mut Hand) -> bool,
}

/// A log in hand, with the records that links led to before any damage.
pub struct Hand {
    pub log: Log,
    reached: Vec<u32>,
    random: Random,
}

/// Record 0's links.
const HEADS: [usize; 5] = [1, 2, 3, 4, 6];

const BAD_PATHS: [&[u8]; 7] = [b"a", b"//", b"/a/", b"/a//b", b"a/b", b"//a", b"\0"];

/// No kind, or one of another chain.
const ANY_KIND: u32 = 17;

const fn breaks(name: &'static str, make: fn(&mut Hand) -> bool) -> Damage {
    Damage { name, breaks: true, make }
}

const fn passes(name: &'static str, make: fn(&mut Hand) -> bool) -> Damage {
    Damage { name, breaks: false, make }
}

/// Every clause of row 8, then what is no fault.
pub static DAMAGES: [Damage; 38] = [
    breaks("no words", |hand| hand.resize(0)),
    breaks("words that are no multiple of 16", Hand::odd_words),
    breaks("a link to a record that is cut off", Hand::cut_record),
    breaks("a link of record 0 out of the log", |hand| {
        let word = hand.random.pick(&HEADS);
        hand.link_out(0, word)
    }),
    breaks("next out of the log", |hand| hand.link_of(|_| true, 1)),
    breaks("child out of the log", |hand| hand.link_of(|kind| matches!(kind, 1 | 2 | 9 | 13), 6)),
    breaks("body out of the log", |hand| hand.link_of(|kind| kind == 13, 8)),
    breaks("a link to record 65,536 or above of a log that long", Hand::link_above_most),
    breaks("a child word in a kind without children", |hand| {
        let any = hand.random.below(hand.count() + 2) as u32 + 1;
        hand.set(has_no_children, 6, any)
    }),
    breaks("a child word in a kind without children to a record that no other link leads to", |hand| {
        hand.loose_number().is_some_and(|loose| hand.set(has_no_children, 6, loose))
    }),
    breaks("two links to a record", Hand::link_twice),
    breaks("two links of record 0 to a record", Hand::link_twice_at_0),
    breaks("a chain that leads back into itself", Hand::loop_back),
    breaks("a record that leads to itself", Hand::loop_at_once),
    breaks("a text past the end", |hand| {
        let word = hand.random.pick(&[3, 5]);
        let length = hand.log.bytes.len() as u32 + 1 + hand.random.below(3) as u32;
        hand.set(|_| true, word, length)
    }),
    breaks("a text whose end is above 2^32", |hand| {
        let word = hand.random.pick(&[2, 4]);
        let starts = u32::MAX - hand.random.below(2) as u32;
        hand.set(|_| true, word, starts) && hand.set_again(word + 1, 2)
    }),
    breaks("an empty text that starts past the end", |hand| {
        let word = hand.random.pick(&[2, 4]);
        let start = hand.log.bytes.len() as u32 + 1;
        hand.set(|_| true, word + 1, 0) && hand.set_again(word, start)
    }),
    breaks("bytes cut off", |hand| hand.cut_bytes()),
    breaks("kind 0", |hand| hand.set(|_| true, 0, 0)),
    breaks("a kind above 15", |hand| {
        let kind = hand.random.pick(&[16, 17, 255, 256 + 1, 65_536 + 2, u32::MAX]);
        hand.set(|_| true, 0, kind)
    }),
    breaks("a kind of another chain", |hand| {
        let kind = hand.random.below(ANY_KIND as usize) as u32;
        hand.set(|was| kind_group(was) != kind_group(kind), 0, kind)
    }),
    breaks("a span that ends before it starts", |hand| hand.span(|kind| !(7..=12).contains(&kind), 9)),
    breaks("a name span that ends before it starts", |hand| {
        hand.span(|kind| !(7..=12).contains(&kind) && kind != 14, 11)
    }),
    breaks("a definition's path that is none", |hand| hand.bad_path(|kind| (1..=4).contains(&kind), 2)),
    breaks("a path that is none in an extension's body", Hand::bad_body_path),
    breaks("an empty path of a definition", |hand| hand.set(|kind| (1..=4).contains(&kind), 3, 0)),
    breaks("a version or plugin path that is none", |hand| hand.bad_path(|kind| matches!(kind, 5 | 6), 2)),
    breaks("a binding's path that is none", |hand| hand.bad_path(|kind| kind == 14, 4)),
    breaks("an empty path of a binding", |hand| hand.set(|kind| kind == 14, 5, 0)),
    passes("an empty version or plugin path", |hand| hand.set(|kind| matches!(kind, 5 | 6), 3, 0)),
    passes("an empty label of a binding", |hand| hand.set(|kind| kind == 14, 3, 0)),
    passes("an extension without a reference", |hand| hand.set(|kind| kind == 13, 6, 0)),
    passes("an empty text at the end of the bytes", |hand| {
        let end = hand.log.bytes.len() as u32;
        hand.set(|kind| matches!(kind, 9 | 11 | 13), 3, 0) && hand.set_again(2, end)
    }),
    passes("a span in a kind without spans", |hand| hand.span(|kind| (7..=12).contains(&kind), 9)),
    passes("a name span in a binding", |hand| hand.span(|kind| kind == 14, 11)),
    passes("other counts in record 0", |hand| {
        let (word, any) = (hand.random.pick(&[0, 5, 7, 15]), hand.random.next() as u32);
        hand.word(0, word).map(|there| *there = any).is_some()
    }),
    passes("a definition in record 65,535", Hand::move_to_last),
    passes("anything in a record that no link leads to", Hand::loose_record),
];

fn has_no_children(kind: u32) -> bool {
    !matches!(kind, 1 | 2 | 9 | 13)
}

/// Kinds that can stand in the same chains.
fn kind_group(kind: u32) -> u32 {
    match kind {
        1..=6 => 1,
        8..=10 => 8,
        _ => kind,
    }
}

impl Hand {
    pub fn new(log: Log, random: Random) -> Self {
        let reached = row_8::reached(&log.words);
        let reached = (1..).zip(&reached[1..]).filter(|(_, reached)| reached.times > 0);
        Self { reached: reached.map(|(number, _)| number).collect(), log, random }
    }

    /// One of the changes.
    pub fn pick(&mut self) -> &'static Damage {
        &DAMAGES[self.random.below(DAMAGES.len())]
    }

    fn count(&self) -> usize {
        self.log.words.len() / RECORD
    }

    fn word(&mut self, number: u32, word: usize) -> Option<&mut u32> {
        self.log.words.get_mut(number as usize * RECORD + word)
    }

    /// A reached record of such a kind; it comes first from then on.
    fn some(&mut self, fits: impl Fn(u32) -> bool) -> Option<u32> {
        let words = &self.log.words;
        let kind_fits = |number: &u32| words.get(*number as usize * RECORD).is_some_and(|kind| fits(*kind));
        let places: Vec<usize> =
            (0..self.reached.len()).filter(|place| kind_fits(&self.reached[*place])).collect();
        if places.is_empty() {
            return None;
        }
        self.reached.swap(0, self.random.pick(&places));
        Some(self.reached[0])
    }

    /// Sets a word of some record of such a kind.
    fn set(&mut self, fits: impl Fn(u32) -> bool, word: usize, value: u32) -> bool {
        self.some(fits).is_some_and(|_| self.set_again(word, value))
    }

    /// Sets a word of the same record.
    fn set_again(&mut self, word: usize, value: u32) -> bool {
        self.word(self.reached[0], word).map(|there| *there = value).is_some()
    }

    fn resize(&mut self, words: usize) -> bool {
        let mut all = self.log.words.to_vec();
        all.resize(words, 0);
        self.log.words = all.into_boxed_slice();
        true
    }

    fn odd_words(&mut self) -> bool {
        let (count, odd) = (self.count(), 1 + self.random.below(RECORD - 1));
        let whole = self.random.pick(&[0, count.saturating_sub(1), count]);
        self.resize(whole * RECORD + odd)
    }

    /// Cuts the log before its last reached record.
    fn cut_record(&mut self) -> bool {
        let last = self.reached.iter().max().copied();
        last.is_some_and(|last| {
            self.log.words.len() > last as usize * RECORD && self.resize(last as usize * RECORD)
        })
    }

    /// Makes a link lead out of the log.
    fn link_out(&mut self, number: u32, word: usize) -> bool {
        let count = self.count() as u32;
        let out = self.random.pick(&[count, count + 1, 65_536, 65_537, 1 << 28, u32::MAX]);
        self.word(number, word).map(|link| *link = out).is_some()
    }

    fn link_of(&mut self, fits: impl Fn(u32) -> bool, word: usize) -> bool {
        self.some(fits).is_some_and(|number| self.link_out(number, word))
    }

    /// Makes a log hold more records than 65,536. Rare, since it is large.
    fn grow(&mut self) -> bool {
        let count = 65_537 + self.random.below(3);
        self.random.once_in(40) && self.count() > 1 && self.resize(count * RECORD)
    }

    /// Moves the first definition to the last record that a link may lead to.
    fn move_to_last(&mut self) -> bool {
        let first = self.word(0, 1).map_or(0, |first| *first as usize);
        if first == 0 || first >= self.count() || !self.grow() {
            return false;
        }
        let first = first * RECORD;
        self.log.words.copy_within(first..first + RECORD, 65_535 * RECORD);
        self.log.words[1] = 65_535;
        true
    }

    /// Makes a link of a log that has records 65,536 and above lead to one of them.
    fn link_above_most(&mut self) -> bool {
        if !self.grow() {
            return false;
        }
        let above = 65_536 + self.random.below(self.count() - 65_536) as u32;
        self.log.words[above as usize * RECORD] = 1;
        let word = self.random.pick(&HEADS);
        self.word(0, word).map(|link| *link = above).is_some()
    }

    /// A link of a reached record leads to another that is reached already.
    fn link_twice(&mut self) -> bool {
        let Some(to) = self.some(|_| true) else { return false };
        let kind = self.random.pick(&[1, 2, 9, 13]);
        match self.random.below(3) {
            0 => self.set(|_| true, 1, to),
            1 => self.set(|was| was == kind, 6, to),
            _ => self.set(|kind| kind == 13, 8, to),
        }
    }

    fn link_twice_at_0(&mut self) -> bool {
        let (Some(to), word) = (self.some(|_| true), self.random.pick(&HEADS)) else { return false };
        let there = self.word(0, word);
        there.is_some_and(|link| std::mem::replace(link, to) != to)
    }

    fn loop_back(&mut self) -> bool {
        let first = self.log.words.get(1).copied().unwrap_or(0);
        let mut last = first;
        for _ in 0..self.count() {
            last = self.word(last, 1).copied().filter(|next| *next != 0).unwrap_or(last);
        }
        first != 0 && last != first && self.word(last, 1).map(|link| *link = first).is_some()
    }

    fn loop_at_once(&mut self) -> bool {
        let kind = self.random.pick(&[1, 2, 9, 13]);
        let word = self.random.pick(&[1, 6]);
        let Some(number) = self.some(|was| word == 1 || was == kind) else { return false };
        self.set_again(word, number)
    }

    fn cut_bytes(&mut self) -> bool {
        let most = self.log.bytes.len();
        if most == 0 {
            return false;
        }
        let left = self.random.below(most);
        self.log.bytes = self.log.bytes[..left].into();
        true
    }

    fn span(&mut self, fits: impl Fn(u32) -> bool, word: usize) -> bool {
        let end = self.random.pick(&[0, 1, 1 << 31, u32::MAX - 1]);
        self.set(fits, word, end + 1) && self.set_again(word + 1, end)
    }

    /// Gives some record a text that is no path.
    fn bad_path(&mut self, fits: impl Fn(u32) -> bool, word: usize) -> bool {
        self.some(fits).is_some() && self.bad_path_again(word)
    }

    fn bad_body_path(&mut self) -> bool {
        let body = self.some(|kind| kind == 13).and_then(|number| self.word(number, 8).copied());
        let Some(place) = self.reached.iter().position(|number| Some(*number) == body) else { return false };
        self.reached.swap(0, place);
        self.bad_path_again(2)
    }

    /// Gives the same record a text that is no path, behind the other bytes.
    fn bad_path_again(&mut self, word: usize) -> bool {
        let bad = self.random.pick(&BAD_PATHS);
        let start = self.log.bytes.len() as u32;
        self.log.bytes = [&self.log.bytes, bad].concat().into_boxed_slice();
        self.set_again(word, start) && self.set_again(word + 1, bad.len() as u32)
    }

    /// A record that no link leads to: one that is there, or where the first definition was, which then
    /// stands behind the others.
    fn loose_number(&mut self) -> Option<u32> {
        let count = self.count() as u32;
        let first = self.word(0, 1).copied().filter(|first| (1..count).contains(first))?;
        let loose: Vec<u32> = (1..count).filter(|number| !self.reached.contains(number)).collect();
        if !loose.is_empty() && self.random.once_in(2) {
            return Some(self.random.pick(&loose));
        }
        self.resize((count as usize + 1) * RECORD);
        let from = first as usize * RECORD;
        self.log.words.copy_within(from..from + RECORD, count as usize * RECORD);
        self.log.words[1] = count;
        let place = self.reached.iter().position(|number| *number == first)?;
        self.reached[place] = count;
        *self.word(first, 1)? = 0;
        *self.word(first, 6)? = 0;
        Some(first)
    }

    fn loose_record(&mut self) -> bool {
        let number = self.random.below(self.count().max(1)) as u32;
        if number == 0 || self.reached.contains(&number) {
            return false;
        }
        for word in &mut self.log.words[number as usize * RECORD..][..RECORD] {
            *word = self.random.next() as u32 >> self.random.below(32);
        }
        true
    }
}
