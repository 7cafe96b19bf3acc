//! Logs as a caller lends them: the queries of a side against the Rust and rows 8 to 10.

mod asked;
mod damage;
pub mod faults;
mod known;
mod layout;
mod made;
pub mod rust;
pub mod speed;

use asked::Asked;
use damage::{DAMAGES, Hand};
use layout::{Layout, Log};

use crate::{
    answer::Answer,
    by_01::row_8::{self, Chain, Refusal, Rule},
    by_02::files::MOST_FILES,
    counts,
    coverage::Coverage,
    generate::generate,
    library::Queries,
    output::RECORD,
    random::{self, Random},
    records::{ONE_FILE, SIGNED},
    trees::{by_the_rust, size_of_case},
};

/// What a comparison counted.
#[derive(Default)]
pub struct Counts {
    pub logs: u64,
    pub calls: u64,
    pub refused: u64,
    pub different: u64,
    /// Logs for which 01 allows more than one answer.
    pub open: u64,
}

impl Counts {
    /// As a part of a run.
    pub fn total(&self) -> counts::Counts {
        counts::Counts { compared: self.calls, different: self.different, aside: self.open }
    }

    pub fn line(&self) -> String {
        let Self { logs, calls, refused, different, open } = self;
        format!(
            "{logs} logs, {refused} of them refused by row 8 ({open} with more than one answer that 01 allows), \
             {calls} queries, {different} different"
        )
    }
}

/// Compares a side with known answers to logs written by hand, then with the Rust on as many logs that keep
/// the output rules, half of them the Rust's lowerings of generated descriptions, and on as many damaged ones.
pub fn compare(side: &Queries, from: u64, logs: u64, coverage: &mut Coverage) -> Counts {
    let mut counts = Counts::default();
    for fault in known::compare(side, &mut counts) {
        counts.different += 1;
        println!("{fault}");
    }
    for seed in random::seeds(from, logs) {
        for fault in compare_seed(side, seed, &mut counts, coverage) {
            counts.different += 1;
            if counts.different <= 3 {
                println!("seed {seed}, {fault}");
            }
        }
    }
    counts
}

/// Compares the log of a seed as made, and damaged: the differences.
fn compare_seed(side: &Queries, seed: u64, counts: &mut Counts, coverage: &mut Coverage) -> Vec<String> {
    let random = &mut Random::new(seed);
    let log = log(seed, random, coverage);
    let as_made = compare_sound(side, &log, random, counts, coverage);
    let (damaged, names) = damaged(log, random);
    let broken = compare_damaged(side, &damaged, &names, random, counts, coverage);
    counts.logs += 2;
    let of = |what: String| move |fault: String| format!("{what}: {fault}");
    let found = [as_made.map_err(of("as made".to_owned())), broken.map_err(of(names.join(", ")))];
    found.into_iter().filter_map(Result::err).collect()
}

/// What is to come up.
pub fn wanted() -> Coverage {
    let damages = DAMAGES.iter().map(|damage| outcome(damage.name, damage.breaks));
    let rules = RULES.iter().map(|rule| returned_for(*rule));
    Coverage::wanting(damages.chain(rules).chain(SEEN.map(str::to_owned)))
}

const SEEN: [&str; 20] = [
    "the Rust's lowering, written plainly",
    "the Rust's lowering, written in any order",
    "any log, written plainly",
    "any log, written in any order",
    "a log without definitions",
    "a link to a lower record",
    FILES,
    NO_FILES,
    "an extension's body with definitions",
    "texts that are not UTF-8",
    "a list without answers",
    "room just enough",
    "room to spare",
    "room one short",
    "no room",
    "contains_node 1",
    "contains_node 0 of a path where a node was",
    "a path that is none",
    "a path that stands in the log's bytes",
    "several records at fault",
];

/// Row 8 does not look at words 13 and 14 (02, request 3).
const FILES: &str = "files' numbers of several files";
const NO_FILES: &str = "in the place of files' numbers what none is";

const RULES: [Rule; 16] = [
    Rule::Words,
    Rule::LinkOut,
    Rule::ChildWord,
    Rule::Twice,
    Rule::Text,
    Rule::Kind(Chain::Definitions),
    Rule::Kind(Chain::Extensions),
    Rule::Kind(Chain::Bindings),
    Rule::Kind(Chain::Diagnostics),
    Rule::Kind(Chain::Labels),
    Rule::Kind(Chain::Values),
    Rule::Kind(Chain::Cells),
    Rule::Kind(Chain::References),
    Rule::Kind(Chain::Nowhere),
    Rule::Span,
    Rule::Path,
];

fn outcome(damage: &str, breaks: bool) -> String {
    format!("{damage}, alone: {}", if breaks { "refused" } else { "accepted" })
}

fn returned_for(rule: Rule) -> String {
    format!("returned for the rule {rule:?}")
}

/// The log of a seed.
fn log(seed: u64, random: &mut Random, coverage: &mut Coverage) -> Log {
    let (origin, answer, starts) = if seed.is_multiple_of(2) {
        let case = generate(seed / 2, size_of_case(seed / 2), SIGNED);
        ("the Rust's lowering", by_the_rust(&case, 0).0, case.records.starts)
    } else {
        ("any log", made::made(seed), ONE_FILE.to_vec())
    };
    let layout = if random.once_in(4) { Layout::Plain } else { Layout::Any };
    let written = if layout == Layout::Plain { "plainly" } else { "in any order" };
    coverage.add(format!("{origin}, written {written}"), 1);
    note_answer(&answer, coverage);
    let mut log = layout::write(&answer, layout, random);
    if layout == Layout::Plain {
        log.put_files(&starts);
    }
    note_files(&log, coverage);
    let down = rust::definitions(&log).windows(2).any(|pair| pair[1].0 < pair[0].0);
    coverage.add("a link to a lower record".to_owned(), down.into());
    log
}

/// Notes what stands in words 13 and 14 of the definitions.
fn note_files(log: &Log, coverage: &mut Coverage) {
    let most = MOST_FILES as u32;
    let words = rust::definitions(log).into_iter().map(|(number, ..)| number as usize * RECORD + 13);
    let files: Vec<u32> = words.flat_map(|word| [log.words[word], log.words[word + 1]]).collect();
    let several = files.iter().any(|file| *file != 0) && files.iter().all(|file| *file < most);
    coverage.add(FILES.to_owned(), several.into());
    coverage.add(NO_FILES.to_owned(), files.iter().any(|file| *file >= most).into());
}

fn note_answer(answer: &Answer, coverage: &mut Coverage) {
    let bodies = answer.extensions.iter().any(|extension| !extension.body.is_empty());
    coverage.add("an extension's body with definitions".to_owned(), bodies.into());
    coverage.add("a log without definitions".to_owned(), answer.definitions.is_empty().into());
}

/// Paths asked for, beside "" and "/": of a log as made, and of one that is damaged and yet sound.
const PATHS: usize = 10;
const PATHS_DAMAGED: usize = 2;

fn compare_sound(
    side: &Queries,
    log: &Log,
    random: &mut Random,
    counts: &mut Counts,
    coverage: &mut Coverage,
) -> Result<(), String> {
    assert_eq!(row_8::refusal(&log.words, &log.bytes), Refusal::default(), "a log as made breaks a rule");
    let mut asked = Asked::new(side, log, random);
    let result = asked.sound(PATHS);
    counts.calls += asked.calls;
    for what in &asked.seen {
        coverage.add((*what).to_owned(), 1);
    }
    result
}

/// A log with one change or, often, more; and which.
fn damaged(log: Log, random: &mut Random) -> (Log, Vec<&'static str>) {
    let wanted = random.pick(&[1, 1, 1, 2, 3]);
    let mut hand = Hand::new(log, Random::new(random.next()));
    let mut names = Vec::new();
    while names.len() < wanted {
        let damage = hand.pick();
        if (damage.make)(&mut hand) {
            names.push(damage.name);
        }
    }
    (hand.log, names)
}

fn compare_damaged(
    side: &Queries,
    log: &Log,
    names: &[&str],
    random: &mut Random,
    counts: &mut Counts,
    coverage: &mut Coverage,
) -> Result<(), String> {
    let refusal = row_8::refusal(&log.words, &log.bytes);
    counts.open += u64::from(refusal.allowed().len() > 1);
    if let [name] = names {
        coverage.add(outcome(name, !refusal.faults.is_empty()), 1);
    }
    let mut asked = Asked::new(side, log, random);
    let result = match refusal.faults.first() {
        None => asked.sound(PATHS_DAMAGED),
        Some((_, rule)) => {
            coverage.add(returned_for(*rule), 1);
            coverage.add("several records at fault".to_owned(), u64::from(refusal.faults.len() > 1));
            counts.refused += 1;
            asked.broken(&refusal)
        }
    };
    counts.calls += asked.calls;
    result
}
