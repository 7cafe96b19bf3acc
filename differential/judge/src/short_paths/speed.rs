//! How long short paths take: a rack of bays, each reopened by a reference with its unit address left out, or one bay that all
//! references reopen, beside the same with full paths, which docs/src has too; references that more than one bay matches; and
//! bays that are deleted.

use std::{cell::RefCell, hint::black_box};

use dt_tools_lowering::{check, database, lower};

use crate::{
    crate_tree::crate_tree,
    generate::Case,
    library::Library,
    measure::measured,
    output::RECORD,
    records::{self, MOST_RECORDS, Records, SIGNED},
    tree::{self, Rec},
    trees::judged_case,
    whole::{self, Due},
};

/// Records of the descriptions, record 0 counted.
const SIZES: [usize; 4] = [256, 512, 1024, MOST_RECORDS];

/// Bays that a path matches.
const MATCHES: [usize; 6] = [1, 2, 8, 32, 128, 509];

/// Measures and prints the tables.
pub fn run(side: &Library) -> Result<(), String> {
    println!(
        "\n| bays | records | references | short paths, µs | full paths, µs | Rust, full paths, µs | short to full | full to Rust |"
    );
    println!("|---:|---:|---:|---:|---:|---:|---:|---:|");
    for size in SIZES {
        each(side, size)?;
    }
    for size in SIZES {
        one(side, size)?;
    }
    println!("\n| bays that each short path matches (29 from 2 on) | records | references | µs |");
    println!("|---:|---:|---:|---:|");
    for matches in MATCHES {
        matching(side, matches)?;
    }
    println!("\n| deleted bays that each short path would match | records | references | µs |");
    println!("|---:|---:|---:|---:|");
    for size in SIZES {
        deleted(side, size)?;
    }
    Ok(())
}

/// A description, and buffers with just enough room for its log.
struct Bench<'a> {
    side: &'a Library,
    case: Case,
    buffers: RefCell<(Vec<u32>, Vec<u8>)>,
}

impl<'a> Bench<'a> {
    /// Compares the log first.
    fn new(side: &'a Library, top: Vec<Rec>) -> Result<Self, String> {
        let judged = judged_case(Case::known(top, SIGNED), 0);
        let made = (judged.by_01.records, judged.by_01.bytes);
        let due = Due { records: &judged.case.records, answer: &judged.answer, made };
        let (words, bytes) = (made.0 as usize * RECORD, made.1 as usize);
        whole::lowered(side, &due, words, bytes)?;
        Ok(Self { side, case: judged.case, buffers: RefCell::new((vec![0; words], vec![0; bytes])) })
    }

    fn lower(&self) {
        let (words, bytes) = &mut *self.buffers.borrow_mut();
        let records: &Records = &self.case.records;
        assert_eq!((self.side.lower)(records, words, bytes), (0, 0));
    }

    fn records(&self) -> usize {
        self.case.records.words.len() / records::RECORD
    }
}

/// A reference to each bay.
fn each(side: &Library, size: usize) -> Result<(), String> {
    let bays = bays(size);
    let full: Vec<String> = (0..bays).map(|place| format!("bay-{place}@{place:x}")).collect();
    let short: Vec<String> = (0..bays).map(|place| format!("bay-{place}")).collect();
    row(side, size, &full, &short, &full)
}

/// All references to one bay: there is hardly anything else.
fn one(side: &Library, size: usize) -> Result<(), String> {
    let references = (size - 8) / 2;
    let of = |name: &str| vec![name.to_owned(); references];
    row(side, size, &["bay@0".to_owned()], &of("bay"), &of("bay@0"))
}

/// The same references in short and in full.
fn row(
    side: &Library,
    size: usize,
    bays: &[String],
    short: &[String],
    full: &[String],
) -> Result<(), String> {
    let references = short.len();
    let (short, full) =
        (Bench::new(side, made(bays, short, size))?, Bench::new(side, made(bays, full, size))?);
    let tree = crate_tree(&full.case.top, SIGNED, 0);
    let times = measured([&mut || short.lower(), &mut || full.lower(), &mut || {
        let db = database(tree.root.clone());
        let lowered = lower(&db);
        black_box(check(&db, lowered));
    }]);
    let [by_short, by_full, rust] = times.map(|times| times.least / 1e3);
    println!(
        "| {} | {} | {references} | {by_short:.1} | {by_full:.1} | {rust:.1} | {:.2} | {:.1} |",
        bays.len(),
        short.records(),
        by_short / by_full,
        by_full / rust,
    );
    Ok(())
}

/// References of 2,048 records, each to what so many bays match.
fn matching(side: &Library, matches: usize) -> Result<(), String> {
    let bays = bays(MOST_RECORDS);
    let name = |place: usize| if place < matches { "bay".to_owned() } else { format!("lock-{place}") };
    let names: Vec<String> = (0..bays).map(|place| format!("{}@{place:x}", name(place))).collect();
    let bench = Bench::new(side, made(&names, &vec!["bay".to_owned(); bays], MOST_RECORDS))?;
    let [times] = measured([&mut || bench.lower()]);
    println!("| {matches} | {} | {bays} | {:.1} |", bench.records(), times.least / 1e3);
    Ok(())
}

/// Bays, their deletions, and as many references to what they were.
fn deleted(side: &Library, size: usize) -> Result<(), String> {
    let bays = (size - 6) / 6;
    let names: Vec<String> = (0..bays).map(|place| format!("bay@{place:x}")).collect();
    let mut top = made(&names, &vec!["bay".to_owned(); bays], 0);
    let deletions =
        names.iter().map(|name| Rec { w: 4, child: vec![rec(tree::NAME, name)], ..rec(tree::DIRECTIVE, "") });
    top[1].more[0].more.extend(deletions);
    let bench = Bench::new(side, top)?;
    let [times] = measured([&mut || bench.lower()]);
    println!("| {bays} | {} | {bays} | {:.1} |", bench.records(), times.least / 1e3);
    Ok(())
}

fn rec(kind: u32, text: &str) -> Rec {
    Rec { kind, text: text.into(), ..Rec::default() }
}

/// How many bays, each with a reference, so many records have room for: 2 each for both, and 6 around them.
fn bays(size: usize) -> usize {
    (size - 6) / 4
}

/// A rack of bays, and a reference to each path in it; directives that say nothing fill up.
fn made(bays: &[String], references: &[String], size: usize) -> Vec<Rec> {
    let node = |part: Rec, more: Vec<Rec>| Rec { child: vec![part], more, ..rec(tree::NODE, "") };
    let bays = bays.iter().map(|name| node(rec(tree::NAME, name), Vec::new())).collect();
    let rack = node(rec(tree::NAME, "rack"), bays);
    let mut top = vec![Rec { w: 1, ..rec(tree::DIRECTIVE, "") }, node(rec(tree::SLASH, ""), vec![rack])];
    top.extend(references.iter().map(|path| {
        let reference = Rec { w: 1, ..rec(tree::REFERENCE, &format!("&{{/rack/{path}}}")) };
        node(reference, Vec::new())
    }));
    while tree::count(&top) + 1 < size {
        top.push(Rec { w: 6, ..rec(tree::DIRECTIVE, "") });
    }
    top
}
