//! How long lowering takes: ours through C against docs/src, on the same descriptions, with the same logs.

use std::{cell::RefCell, hint::black_box};

use dt_tools_lowering::{check, database, lower};

use crate::{
    crate_tree::crate_tree,
    generate::Case,
    library::Library,
    measure::{Times, measured},
    output::RECORD,
    random::Random,
    records::{self, MOST_RECORDS, ONE_FILE, Records, SIGNED},
    tree::{self, Rec},
    trees::judged_case,
    whole::{self, Due},
};

/// Records of the descriptions, record 0 counted.
pub const SIZES: [usize; 3] = [100, 500, MOST_RECORDS];

/// Buffers of the largest log.
const FULL: (usize, usize) = (65_536 * RECORD, 1 << 24);

/// What a description has much of: its name, how often an item of a body is a node, a property or a
/// deletion, of how many nodes one has a label, and whether top items reopen nodes.
pub struct Mix {
    pub name: &'static str,
    weights: [usize; 3],
    labels: usize,
    reopens: bool,
}

pub const MIXES: [Mix; 4] = [
    Mix { name: "properties", weights: [1, 6, 0], labels: 4, reopens: false },
    Mix { name: "nodes", weights: [5, 1, 0], labels: 4, reopens: false },
    Mix { name: "references", weights: [2, 3, 0], labels: 1, reopens: true },
    Mix { name: "deletions", weights: [4, 2, 2], labels: 1, reopens: true },
];

/// Measures all and prints the tables.
pub fn run(side: &Library) -> Result<(), String> {
    println!(
        "\n| description | records | made, records | made, bytes | ours, µs | Rust, µs | ratio | by medians \
         | clearing | ratio without it | rows 1 to 6 | ns for a record |"
    );
    println!("|---|---:|---:|---:|---:|---:|---:|---:|---:|---:|---:|---:|");
    for mix in &MIXES {
        for size in SIZES {
            Bench::new(side, mix, size)?.just_enough(mix.name, size);
        }
    }
    println!(
        "\n| description | records | ours into 65,536 records and 2^24 bytes, µs | clearing alone, µs | difference |"
    );
    println!("|---|---:|---:|---:|---:|");
    for mix in &MIXES {
        for size in SIZES {
            Bench::new(side, mix, size)?.full(mix.name, size);
        }
    }
    Ok(())
}

/// A description on both sides.
struct Bench<'a> {
    side: &'a Library,
    case: Case,
    made: (u64, u64),
}

impl<'a> Bench<'a> {
    /// Makes it, and compares the logs.
    fn new(side: &'a Library, mix: &Mix, size: usize) -> Result<Self, String> {
        let judged = judged_case(Case::known(made(mix, size), SIGNED), 0);
        let made = (judged.by_01.records, judged.by_01.bytes);
        let due = Due { records: &judged.case.records, answer: &judged.answer, made };
        whole::lowered(side, &due, made.0 as usize * RECORD, made.1 as usize)?;
        assert_eq!(judged.case.records.words.len(), size * records::RECORD, "as many records as wanted");
        Ok(Self { side, case: judged.case, made })
    }

    /// Lowers into buffers that calls share, so that where they lie in memory makes no difference.
    fn lower(&self, records: &Records, buffers: &RefCell<(Vec<u32>, Vec<u8>)>) {
        let (words, bytes) = &mut *buffers.borrow_mut();
        assert_eq!((self.side.lower)(records, words, bytes), (0, 0));
    }

    /// Ours into buffers with just enough room; clearing is the lowering of an empty description into
    /// them; and rows 1 to 6 are what is left where there is no room at all.
    fn just_enough(&self, mix: &str, size: usize) {
        let buffers = RefCell::new((vec![0; self.made.0 as usize * RECORD], vec![0; self.made.1 as usize]));
        let (tree, empty) = (crate_tree(&self.case.top, SIGNED, 0), empty());
        let times = measured([
            &mut || self.lower(&self.case.records, &buffers),
            &mut || {
                let db = database(tree.root.clone());
                let lowered = lower(&db);
                black_box(check(&db, lowered));
            },
            &mut || self.lower(&empty, &buffers),
            &mut || assert_eq!((self.side.lower)(&self.case.records, &mut [], &mut []), (7, 0)),
        ]);
        self.print(mix, size, times);
    }

    fn print(&self, mix: &str, size: usize, [ours, rust, clearing, rows]: [Times; 4]) {
        println!(
            "| {mix} | {size} | {} | {} | {:.1} | {:.1} | {:.1} | {:.1} | {:.0} % | {:.1} | {:.0} % | {:.0} |",
            self.made.0,
            self.made.1,
            ours.least / 1e3,
            rust.least / 1e3,
            ours.least / rust.least,
            ours.median / rust.median,
            100.0 * clearing.least / ours.least,
            (ours.least - clearing.least) / rust.least,
            100.0 * rows.least / ours.least,
            ours.least / size as f64,
        );
    }

    /// Ours into the largest buffers.
    fn full(&self, mix: &str, size: usize) {
        let buffers = RefCell::new((vec![0; FULL.0], vec![0; FULL.1]));
        let empty = empty();
        let [ours, clearing] = measured([&mut || self.lower(&self.case.records, &buffers), &mut || {
            self.lower(&empty, &buffers)
        }]);
        let [ours, clearing] = [ours, clearing].map(|times| times.least / 1e3);
        println!("| {mix} | {size} | {ours:.0} | {clearing:.0} | {:.0} |", ours - clearing);
    }
}

/// A description of record 0 alone.
fn empty() -> Records {
    Records { words: vec![0; records::RECORD], text: Vec::new(), level: SIGNED, starts: ONE_FILE.to_vec() }
}

/// A description of just so many records, record 0 counted.
pub fn made(mix: &Mix, size: usize) -> Vec<Rec> {
    let mut maker = Maker { random: Random::new(size as u64), left: size - 1, labels: 0, place: 0 };
    let mut top = vec![maker.directive(1, Vec::new())];
    let room = if mix.reopens { size / 2 } else { 0 };
    let slash = maker.rec(tree::SLASH, b"");
    let items = maker.body(mix, 1, room);
    top.push(maker.node(vec![slash], items));
    while mix.reopens && maker.left > 12 && maker.labels > 0 {
        let label = format!("l{}", maker.random.below(maker.labels));
        let reference = maker.rec(tree::REFERENCE, label.as_bytes());
        let least = maker.left.saturating_sub(40);
        let items = maker.body(mix, 5, least);
        top.push(maker.node(vec![reference], items));
    }
    // What is left is filled with directives that say nothing.
    while maker.left > 0 {
        top.push(maker.directive(6, Vec::new()));
    }
    top
}

const NODES: [&str; 5] = ["bay", "dock", "lock", "bus", "handover"];
const PROPERTIES: [&str; 7] =
    ["compatible", "reg", "status", "interrupts", "clocks", "#address-cells", "dock,colour"];

struct Maker {
    random: Random,
    /// Records that may still be made.
    left: usize,
    /// Labels given so far.
    labels: usize,
    place: u32,
}

impl Maker {
    fn rec(&mut self, kind: u32, text: &[u8]) -> Rec {
        self.left -= 1;
        self.place += 3;
        Rec { kind, text: text.to_vec(), span: (self.place, self.place + 2), ..Rec::default() }
    }

    fn node(&mut self, child: Vec<Rec>, more: Vec<Rec>) -> Rec {
        Rec { child, more, ..self.rec(tree::NODE, b"") }
    }

    fn directive(&mut self, w: u32, child: Vec<Rec>) -> Rec {
        Rec { w, child, ..self.rec(tree::DIRECTIVE, b"") }
    }

    /// Items of a node, nodes at most five deep, until so many records are left or there are enough.
    fn body(&mut self, mix: &Mix, depth: usize, least: usize) -> Vec<Rec> {
        let mut items = Vec::new();
        let most = if depth == 1 { usize::MAX } else { 2 + self.random.below(8) };
        while items.len() < most && self.left > least + 12 {
            let kind = self.random.weighted(&mix.weights);
            let item = match kind {
                0 if depth < 6 => self.named_node(mix, depth, least),
                2 => {
                    let name = self.name();
                    self.directive(4, name)
                }
                _ => self.property(),
            };
            items.push(item);
        }
        items
    }

    /// A name with a unit address: few, so that deletions meet nodes.
    fn name(&mut self) -> Vec<Rec> {
        let name = self.random.pick(&NODES);
        let unit = format!("{:x}", 0x1f40 + self.random.below(16));
        let parts = [self.rec(tree::NAME, name.as_bytes()), self.rec(tree::NAME, unit.as_bytes())];
        let [name, unit] = parts;
        let unit = Rec { child: vec![unit], ..self.rec(tree::UNIT_ADDRESS, b"") };
        vec![name, unit]
    }

    fn named_node(&mut self, mix: &Mix, depth: usize, least: usize) -> Rec {
        let mut parts = self.name();
        if self.random.once_in(mix.labels) {
            let name = self.rec(tree::NAME, format!("l{}", self.labels).as_bytes());
            parts.push(Rec { child: vec![name], ..self.rec(tree::LABEL, b"") });
            self.labels += 1;
        }
        let items = self.body(mix, depth + 1, least);
        self.node(parts, items)
    }

    fn property(&mut self) -> Rec {
        let name = self.random.pick(&PROPERTIES);
        let name = self.rec(tree::NAME, name.as_bytes());
        let value = match self.random.below(3) {
            0 => self.rec(tree::STRING, b"okay"),
            1 => {
                let label = format!("l{}", self.random.below(self.labels.max(1)));
                self.rec(tree::REFERENCE, label.as_bytes())
            }
            _ => {
                let cells = vec![self.rec(tree::NUMBER, b"0x1f40"), self.rec(tree::NUMBER, b"64")];
                Rec { child: cells, ..self.rec(tree::CELL_LIST, b"") }
            }
        };
        Rec { child: vec![name], more: vec![value], ..self.rec(tree::PROPERTY, b"") }
    }
}
