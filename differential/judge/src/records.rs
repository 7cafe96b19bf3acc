//! 01's input records: writing them from a tree, and reading the tree back.

use crate::{
    random::Random,
    tree::{Place, Rec},
};

pub const RECORD: usize = 8;
pub const MOST_RECORDS: usize = 2048;
pub const MOST_TEXT: usize = 65_536;

/// The levels (02, request 10): 1 keeps the signed rule, 2 is unsigned. There is no other.
pub const SIGNED: u32 = 1;
pub const UNSIGNED: u32 = 2;

/// The starts of a description that is one file (02, request 3).
pub const ONE_FILE: [u32; 1] = [0];

/// A description in 01's form, with the level and the files' starts that the caller gives beside it.
#[derive(Debug, Clone, PartialEq, Eq)]
pub struct Records {
    pub words: Vec<u32>,
    pub text: Vec<u8>,
    pub level: u32,
    pub starts: Vec<u32>,
}

/// In which order records are numbered.
#[derive(Debug, Clone, Copy, PartialEq, Eq)]
pub enum Order {
    /// Each record before what hangs below it, and that before the next.
    Down,
    /// Each chain in one piece.
    Across,
    /// Any order in which links go up.
    Any,
}

/// How a description is written.
#[derive(Debug, Clone, Copy)]
pub struct Layout {
    pub order: Order,
    /// Equal texts share their bytes.
    pub shared: bool,
    /// Kinds without a text get one, and there are records that nothing links to.
    pub noise: bool,
}

/// Writes a tree that is told with a level, as one file. There must be room for it.
pub fn write(top: &[Rec], level: u32, layout: Layout, random: &mut Random) -> Records {
    let starts = ONE_FILE.to_vec();
    let out = Records { words: vec![0; RECORD], text: Vec::new(), level, starts };
    let mut writer = Writer { out, open: Vec::new(), shared: layout.shared };
    writer.open_chain(top, 0, 2);
    while !writer.open.is_empty() {
        let at = match layout.order {
            Order::Down => writer.open.len() - 1,
            Order::Across => 0,
            Order::Any => random.below(writer.open.len()),
        };
        let (chain, link) = writer.open.remove(at);
        if layout.noise
            && random.once_in(8)
            && writer.out.words.len() / RECORD + crate::tree::count(top) < 1500
        {
            writer.loose(random);
        }
        let number = writer.record(&chain[0], layout.noise, random);
        writer.out.words[link] = number;
        let here = number as usize * RECORD;
        // The last one opened comes first in the order Down, so the next record is opened first.
        if layout.order == Order::Across {
            writer.open_chain_first(&chain[1..], here + 1);
            writer.open_chain(&chain[0].child, here, 2);
            writer.open_chain(&chain[0].more, here, 5);
        } else {
            writer.open_chain(&chain[1..], here, 1);
            writer.open_chain(&chain[0].more, here, 5);
            writer.open_chain(&chain[0].child, here, 2);
        }
    }
    writer.out
}

struct Writer<'a> {
    out: Records,
    /// Chains whose first record has no number yet, and the word that links to it.
    open: Vec<(&'a [Rec], usize)>,
    shared: bool,
}

impl<'a> Writer<'a> {
    fn open_chain(&mut self, chain: &'a [Rec], record: usize, word: usize) {
        if !chain.is_empty() {
            self.open.push((chain, record + word));
        }
    }

    fn open_chain_first(&mut self, chain: &'a [Rec], link: usize) {
        if !chain.is_empty() {
            self.open.insert(0, (chain, link));
        }
    }

    fn record(&mut self, rec: &Rec, noise: bool, random: &mut Random) -> u32 {
        let number = (self.out.words.len() / RECORD) as u32;
        let has_text = matches!(rec.kind, 5 | 8 | 9 | 12 | 13 | 14 | 15);
        let (start, length) = if has_text {
            self.text(&rec.text, random)
        } else if noise {
            self.any_text(random)
        } else {
            (0, 0)
        };
        let w = if Place::of_more(rec.kind).is_some() { 0 } else { rec.w };
        self.out.words.extend([rec.kind, 0, 0, start, length, w, rec.span.0, rec.span.1]);
        number
    }

    /// A record that nothing links to: only rows 2 and 3 look at it.
    fn loose(&mut self, random: &mut Random) {
        let (start, length) = self.any_text(random);
        let kind = random.below(23) as u32;
        let w = if Place::of_more(kind).is_some() { 0 } else { random.next() as u32 };
        self.out.words.extend([
            kind,
            0,
            0,
            start,
            length,
            w,
            random.below(99) as u32,
            random.below(99) as u32,
        ]);
    }

    fn any_text(&mut self, random: &mut Random) -> (u32, u32) {
        let start = random.below(self.out.text.len() + 1);
        (start as u32, random.below(self.out.text.len() - start + 1) as u32)
    }

    fn text(&mut self, text: &[u8], random: &mut Random) -> (u32, u32) {
        if text.is_empty() {
            return (random.below(self.out.text.len() + 1) as u32, 0);
        }
        let found = if self.shared {
            self.out.text.windows(text.len()).position(|window| window == text)
        } else {
            None
        };
        let start = found.unwrap_or_else(|| {
            self.out.text.extend_from_slice(text);
            self.out.text.len() - text.len()
        });
        (start as u32, text.len() as u32)
    }
}

/// Reads the tree of records that rows 1 to 6 accept.
pub fn read(records: &Records) -> Vec<Rec> {
    chain(records, records.words[2] as usize)
}

fn chain(records: &Records, mut number: usize) -> Vec<Rec> {
    let mut recs = Vec::new();
    while number != 0 {
        let words = &records.words[number * RECORD..][..RECORD];
        let (start, length) = (words[3] as usize, words[4] as usize);
        let more = Place::of_more(words[0]).is_some();
        let has_text = matches!(words[0], 5 | 8 | 9 | 12 | 13 | 14 | 15);
        recs.push(Rec {
            kind: words[0],
            text: if has_text { records.text[start..start + length].to_vec() } else { Vec::new() },
            w: if more { 0 } else { words[5] },
            span: (words[6], words[7]),
            child: chain(records, words[2] as usize),
            more: if more { chain(records, words[5] as usize) } else { Vec::new() },
        });
        number = words[1] as usize;
    }
    recs
}
