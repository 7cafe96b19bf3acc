//! How long queries take: ours through C against docs/src, on the same logs, with the same answers.

use std::{hint::black_box, ptr};

use super::{
    layout::{self, Layout, Log},
    rust::{self, RustLog},
};
use crate::{
    answer::{Answer, Binding, Cell, Definition, Text, Value},
    by_01::paths::join,
    library::Queries,
    measure::{Times, measured},
    output::RECORD,
    random::Random,
};

/// Definitions of the logs.
const SIZES: [usize; 3] = [200, 2_000, 20_000];

/// Paths that a query is asked for; a figure is the mean over them.
const PATHS: usize = 16;

/// What a log has much of: its name, and how often a definition is a node, a property, a deleted
/// node, a deleted property.
struct Mix {
    name: &'static str,
    weights: [usize; 4],
}

const MIXES: [Mix; 3] = [
    Mix { name: "properties", weights: [1, 9, 0, 0] },
    Mix { name: "nodes", weights: [8, 2, 0, 0] },
    Mix { name: "deletions", weights: [8, 7, 3, 2] },
];

/// Measures all and prints the logs and the table.
pub fn run(side: &Queries) -> Result<(), String> {
    println!("| log | definitions | records | bytes of a path, mean |\n|---|---:|---:|---:|");
    each_log(|mix, size, log, _, _| {
        let paths: usize = rust::definitions(log).iter().map(|(_, _, path)| path.len()).sum();
        println!("| {mix} | {size} | {} | {} |", log.words.len() / RECORD, paths / size);
        Ok(())
    })?;
    println!(
        "\n| log | definitions | query | answers | ours, µs | Rust, µs | ratio | by medians | row 8's test | ratio without it |"
    );
    println!("|---|---:|---|---:|---:|---:|---:|---:|---:|---:|");
    each_log(|mix, size, log, nodes, random| Bench::new(side, log, nodes, random).run(mix, size))?;
    println!("\n| log | definitions | row 8's test, µs | ns for a definition |\n|---|---:|---:|---:|");
    each_log(|mix, size, log, nodes, random| {
        let bench = Bench::new(side, log, nodes, random);
        let [times] = measured([&mut || bench.row_8()]);
        println!("| {mix} | {size} | {:.1} | {:.1} |", times.least / 1e3, times.least / size as f64);
        Ok(())
    })
}

/// Makes each log, and hands it on with the paths of its nodes.
fn each_log(
    mut look: impl FnMut(&str, usize, &Log, Vec<Text>, &mut Random) -> Result<(), String>,
) -> Result<(), String> {
    for mix in &MIXES {
        for size in SIZES {
            let mut random = Random::new(size as u64);
            let (log, nodes) = made(mix, size, &mut random);
            look(mix.name, size, &log, nodes, &mut random)?;
        }
    }
    Ok(())
}

/// A log of definitions as a description would give, and the paths of its nodes.
fn made(mix: &Mix, size: usize, random: &mut Random) -> (Log, Vec<Text>) {
    let mut maker = Maker { random: Random::new(random.next()), nodes: vec![b"/".to_vec()] };
    let mut answer = Answer::default();
    answer.definitions.push(Definition { kind: 5, ..Definition::default() });
    answer.definitions.push(Definition { kind: 1, path: b"/".to_vec(), ..Definition::default() });
    while answer.definitions.len() < size {
        let kind = 1 + maker.random.weighted(&mix.weights) as u32;
        answer.definitions.push(maker.definition(kind));
    }
    for definition in &answer.definitions {
        for label in &definition.labels {
            let (label, path) = (label.clone(), definition.path.clone());
            answer.bindings.push(Binding { label, path, span: (0, 0) });
        }
    }
    (layout::write(&answer, Layout::Plain, random), maker.nodes)
}

const NODES: [&str; 5] = ["bay", "dock", "lock", "bus", "handover"];
const PROPERTIES: [&str; 7] =
    ["compatible", "reg", "status", "interrupts", "clocks", "#address-cells", "dock,colour"];

struct Maker {
    random: Random,
    nodes: Vec<Text>,
}

impl Maker {
    fn definition(&mut self, kind: u32) -> Definition {
        let path = match kind {
            1 => self.node(),
            3 => self.recent(2),
            _ => join(&self.recent(0), self.random.pick(&PROPERTIES).as_bytes()),
        };
        let labelled = kind == 1 && self.random.once_in(4);
        Definition {
            kind,
            labels: if labelled { vec![format!("l{}", self.nodes.len()).into_bytes()] } else { Vec::new() },
            values: if kind == 2 { vec![self.value()] } else { Vec::new() },
            path,
            ..Definition::default()
        }
    }

    /// A new node below a recent one, at most five deep.
    fn node(&mut self) -> Text {
        let parent = loop {
            let parent = self.recent(0);
            if parent.iter().filter(|byte| **byte == b'/').count() < 5 {
                break parent;
            }
        };
        let name = format!("{}@{:x}", self.random.pick(&NODES), self.random.below(0x1_0000));
        let path = join(&parent, name.as_bytes());
        self.nodes.push(path.clone());
        path
    }

    /// A node of the last ones, or sometimes of all, at least that deep if there is one.
    fn recent(&mut self, least: usize) -> Text {
        let from = if self.random.once_in(4) { 0 } else { self.nodes.len().saturating_sub(8) };
        let mut path = &self.nodes[from];
        for _ in 0..8 {
            path = &self.nodes[from + self.random.below(self.nodes.len() - from)];
            if path.iter().filter(|byte| **byte == b'/').count() >= least {
                break;
            }
        }
        path.clone()
    }

    fn value(&mut self) -> Value {
        if self.random.once_in(2) {
            Value::String(b"okay".to_vec())
        } else {
            Value::Cells(32, vec![Cell::Number(self.random.below(4096) as u64)])
        }
    }
}

/// A log on both sides.
struct Bench<'a> {
    side: &'a Queries,
    log: &'a Log,
    rust: RustLog,
    /// Node paths, and paths of any definitions.
    nodes: Vec<Text>,
    any: Vec<Text>,
}

impl<'a> Bench<'a> {
    fn new(side: &'a Queries, log: &'a Log, nodes: Vec<Text>, random: &mut Random) -> Self {
        let rust = RustLog::read(log, &[]);
        let nodes = (0..PATHS).map(|_| nodes[random.below(nodes.len())].clone()).collect();
        let definitions = &rust.mir.definitions;
        let any = (0..PATHS)
            .map(|_| definitions[random.below(definitions.len())].path.clone().into_bytes())
            .collect();
        Self { side, log, rust, nodes, any }
    }

    fn run(&self, mix: &str, size: usize) -> Result<(), String> {
        self.live(mix, size, "live list of all", &[Text::new()])?;
        self.live(mix, size, "live list of a node", &self.nodes)?;
        self.history(mix, size)?;
        self.contains(mix, size)
    }

    /// Row 8's test: a path that is none is refused right behind it.
    fn row_8(&self) {
        assert_eq!(black_box((self.side.contains_node)(&self.log.words, &self.log.bytes, b"//")), (9, 0));
    }

    fn live(&self, mix: &str, size: usize, name: &str, bases: &[Text]) -> Result<(), String> {
        let mut list = vec![0; size];
        let mut due = 0;
        for base in bases {
            let (_, count) = (self.side.live)(&self.log.words, &self.log.bytes, base, &mut list);
            due += same(&list[..count as usize], &self.rust.due(base).live)?;
        }
        let texts: Vec<&str> = bases.iter().map(|base| str::from_utf8(base).expect("made so")).collect();
        let mut found = Vec::with_capacity(size);
        let times = measured([
            &mut || {
                for base in bases {
                    black_box((self.side.live)(&self.log.words, &self.log.bytes, base, &mut list));
                }
            },
            &mut || {
                for base in &texts {
                    found.clear();
                    found.extend(self.rust.mir.iter_live_defs_under(base).map(ptr::from_ref));
                    black_box(&found);
                }
            },
            &mut || self.row_8(),
        ]);
        self.print(mix, size, name, due, bases.len(), times);
        Ok(())
    }

    fn history(&self, mix: &str, size: usize) -> Result<(), String> {
        let mut list = vec![0; size];
        let mut due = 0;
        for path in &self.any {
            let (_, count) = (self.side.history)(&self.log.words, &self.log.bytes, path, &mut list);
            due += same(&list[..count as usize], &self.rust.due(path).history)?;
        }
        let texts: Vec<&str> = self.any.iter().map(|path| str::from_utf8(path).expect("made so")).collect();
        let mut found = Vec::with_capacity(size);
        let times = measured([
            &mut || {
                for path in &self.any {
                    black_box((self.side.history)(&self.log.words, &self.log.bytes, path, &mut list));
                }
            },
            &mut || {
                for path in &texts {
                    found.clear();
                    found.extend(self.rust.mir.history(path).map(ptr::from_ref));
                    black_box(&found);
                }
            },
            &mut || self.row_8(),
        ]);
        self.print(mix, size, "history", due, PATHS, times);
        Ok(())
    }

    fn contains(&self, mix: &str, size: usize) -> Result<(), String> {
        let mut due = 0;
        for path in &self.nodes {
            let answer = (self.side.contains_node)(&self.log.words, &self.log.bytes, path);
            due += same(&[answer.1], &[self.rust.due(path).contains.into()]).map(|_| answer.1 as usize)?;
        }
        let texts: Vec<&str> = self.nodes.iter().map(|path| str::from_utf8(path).expect("made so")).collect();
        let times = measured([
            &mut || {
                for path in &self.nodes {
                    black_box((self.side.contains_node)(&self.log.words, &self.log.bytes, path));
                }
            },
            &mut || {
                for path in &texts {
                    black_box(self.rust.mir.contains_node(path));
                }
            },
            &mut || self.row_8(),
        ]);
        self.print(mix, size, "contains_node", due, PATHS, times);
        Ok(())
    }

    /// A line of the table; ours and the Rust were asked for so many paths in a run.
    fn print(&self, mix: &str, size: usize, query: &str, due: usize, paths: usize, times: [Times; 3]) {
        let [ours, rust, row_8] = times;
        let (ours, rust) = (ours.over(paths as f64), rust.over(paths as f64));
        println!(
            "| {mix} | {size} | {query} | {:.1} | {:.1} | {:.1} | {:.1} | {:.1} | {:.0} % | {:.1} |",
            due as f64 / paths as f64,
            ours.least / 1e3,
            rust.least / 1e3,
            ours.least / rust.least,
            ours.median / rust.median,
            100.0 * row_8.least / ours.least,
            (ours.least - row_8.least) / rust.least
        );
    }
}

/// How many answers there are, if they are the same.
fn same(ours: &[u32], rust: &[u32]) -> Result<usize, String> {
    if ours == rust { Ok(ours.len()) } else { Err("the answers differ".to_owned()) }
}
