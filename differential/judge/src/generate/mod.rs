//! Random descriptions, the same for the same seed.
//!
//! Names, labels and paths come from small alphabets, so that they meet often: prefixes of one
//! another, deleted and added again, labels bound twice, references found and not found.

mod files;
mod nodes;
mod short;
mod unsigned;
mod values;

use crate::{
    random::Random,
    records::{self, Layout, MOST_RECORDS, MOST_TEXT, Order, Records},
    tree::{self, Rec, Span},
};

/// 64 links from record 0 are allowed.
const MOST_LINKS: u32 = 64;

const NAMES: [&str; 12] = ["a", "b", "ab", "c", "a@1", "b@0", "a-b", "@", "\u{e9}", "a b", "abc", "status"];

/// How large a description becomes.
#[derive(Debug, Clone, Copy, PartialEq, Eq)]
pub enum Size {
    /// Tens of records.
    Small,
    /// Hundreds.
    Middle,
    /// All 2,048, or 64 links.
    Limit,
}

impl Case {
    /// A known description of one file, written in the plainest way.
    pub fn known(top: Vec<Rec>, level: u32) -> Self {
        let layout = Layout { order: Order::Down, shared: false, noise: false };
        let records = records::write(&top, level, layout, &mut Random::new(0));
        Self { top, records, layout, look: 0 }
    }

    /// The same with files that start there.
    pub fn of_files(mut self, starts: &[u32]) -> Self {
        self.records.starts = starts.to_vec();
        self
    }
}

/// A description with the way it is written.
pub struct Case {
    pub top: Vec<Rec>,
    pub records: Records,
    pub layout: Layout,
    /// For what the stand-in tree can show in two ways.
    pub look: u64,
}

/// The description of a seed at a level: the levels have expressions of their own.
pub fn generate(seed: u64, size: Size, level: u32) -> Case {
    made(seed, size, level, false)
}

/// The same with names that have unit addresses, and references that leave them out.
pub fn generate_short(seed: u64, size: Size, level: u32) -> Case {
    made(seed, size, level, true)
}

fn made(seed: u64, size: Size, level: u32, short: bool) -> Case {
    let mut random = Random::new(seed);
    loop {
        let top = tree_of(&mut random, size, level, short);
        let order = random.pick(&[Order::Down, Order::Across, Order::Any]);
        let layout = Layout { order, shared: random.once_in(2), noise: random.once_in(3) };
        let mut records = records::write(&top, level, layout, &mut random);
        // At the limit, bytes that no record leads to fill the text up.
        if size == Size::Limit && records.text.len() < MOST_TEXT && random.once_in(3) {
            records.text.resize(MOST_TEXT, b'/');
        }
        if records.words.len() / records::RECORD <= MOST_RECORDS && records.text.len() <= MOST_TEXT {
            records.words.shrink_to_fit();
            records.text.shrink_to_fit();
            let starts = files::starts(seed, &top);
            return Case { top, records, layout, look: random.next() }.of_files(&starts);
        }
    }
}

fn tree_of(random: &mut Random, size: Size, level: u32, short: bool) -> Vec<Rec> {
    let deep = random.once_in(match size {
        Size::Small => 16,
        Size::Middle => 4,
        Size::Limit => 2,
    });
    let room = match size {
        Size::Small if short => 30 + random.below(50),
        Size::Small => 4 + random.below(60),
        Size::Middle => 64 + random.below(400),
        Size::Limit if deep => 300 + random.below(1748),
        Size::Limit => MOST_RECORDS - 1,
    };
    let spans = random.weighted(&[6, 6, 1, 1]);
    let names = 2 + random.below(3) + random.weighted(&[20, 1]) * 7;
    let overlay = random.once_in(3);
    let random = Random::new(random.next());
    let mut maker = Maker {
        random,
        level,
        room: room as isize,
        deep,
        spans,
        names,
        overlay,
        place: 0,
        paths: Vec::new(),
        short,
        meant: None,
        bound: Vec::new(),
    };
    maker.top(room)
}

struct Maker {
    random: Random,
    level: u32,
    /// Records that may still be made.
    room: isize,
    deep: bool,
    spans: usize,
    /// How many of the names are used.
    names: usize,
    overlay: bool,
    /// Where the next span starts, if spans follow one another.
    place: u32,
    /// Paths of nodes made by name.
    paths: Vec<String>,
    /// Names have unit addresses that references leave out.
    short: bool,
    /// The path that the last such reference means.
    meant: Option<String>,
    /// Labels of nodes with their paths.
    bound: Vec<(String, String)>,
}

impl Maker {
    fn top(&mut self, room: usize) -> Vec<Rec> {
        let mut top = Vec::new();
        if !self.random.once_in(5) {
            top.push(self.directive(1, 1));
            if self.overlay && !self.random.once_in(8) {
                top.push(self.directive(2, 1));
            }
        }
        if self.short {
            top.push(self.racks());
        }
        while self.room > 0 {
            let own_body = self.short && self.random.once_in(8);
            top.push(if own_body { self.own_body() } else { self.item("", 1) });
        }
        // What is too much goes; what is missing at the limit is filled up.
        while tree::count(&top) > room {
            top.pop();
        }
        while room == MOST_RECORDS - 1 && tree::count(&top) < room {
            top.push(self.rec(tree::PREPROCESSOR));
        }
        top
    }

    fn rec(&mut self, kind: u32) -> Rec {
        self.room -= 1;
        Rec { kind, span: self.span(), ..Rec::default() }
    }

    fn text(&mut self, kind: u32, text: &str) -> Rec {
        Rec { text: text.as_bytes().to_vec(), ..self.rec(kind) }
    }

    fn span(&mut self) -> Span {
        match self.spans {
            0 => {
                let start = self.place;
                self.place += self.random.below(3) as u32;
                (start, self.place)
            }
            1 => {
                let start = self.random.below(100) as u32;
                (start, start + self.random.below(20) as u32)
            }
            2 => {
                let (one, other) = (self.random.next() as u32, self.random.next() as u32);
                if self.random.once_in(8) { (one, u32::MAX) } else { (one.min(other), one.max(other)) }
            }
            _ => (0, 0),
        }
    }

    /// Whether there is room for `links` more links below a record at `depth`.
    fn fits(depth: u32, links: u32) -> bool {
        depth + links <= MOST_LINKS
    }

    fn name(&mut self) -> String {
        if self.random.once_in(400) {
            return "n".repeat(1 + self.random.below(2000));
        }
        if self.short {
            return self.addressed();
        }
        let end = self.names.min(NAMES.len());
        NAMES[self.random.below(end)].to_owned()
    }

    /// An item whose parent has this path, as far as can be told here.
    fn item(&mut self, parent: &str, depth: u32) -> Rec {
        let kind = if parent.is_empty() {
            self.random.weighted(&[16, 1, 6, 1])
        } else {
            self.random.weighted(&[8, 9, 4, 1])
        };
        match kind {
            0 if Self::fits(depth, 2) => self.node(parent, depth),
            0 | 1 => self.property(depth),
            2 => {
                let w = self.random.weighted(&[0, 1, 1, 1, 8, if parent.is_empty() { 1 } else { 5 }, 1]);
                self.directive(w as u32, depth)
            }
            _ => self.rec(tree::PREPROCESSOR),
        }
    }
}
