//! Demand 3 in runs: a description, and the same with a new subnode and its deletion put in, both lowered
//! by a side; what both write must be alike. Insertions that break a premise show that the comparison
//! sees differences.

mod alike;
mod files;
mod kinds;
mod made;
mod premises;
mod short_paths;
mod spot;

use alike::Run;
use kinds::{Hand, KINDS, Kind};
use premises::{Ground, Inserted, Premise};
use spot::Spot;

use crate::{
    answer::{Answer, Definition},
    by_01::{self, lower::Lowered, paths::under},
    counts,
    coverage::Coverage,
    generate::{Case, Size, generate, generate_short},
    library::Library,
    notation,
    output::RECORD,
    random::{self, Random},
    records::{self, Layout, MOST_RECORDS, Order, Records, SIGNED, UNSIGNED},
    room::Room,
    tree::{self, Rec},
};

/// What a comparison counted: pairs of runs that meet the premises, those that break one, how many of
/// these differ, and how many of the first do.
#[derive(Default)]
pub struct Counts {
    pub alike: u64,
    pub broken: u64,
    pub seen: u64,
    pub different: u64,
}

impl Counts {
    /// As a part of a run: the pairs that meet the premises.
    pub fn total(&self) -> counts::Counts {
        counts::Counts::of(self.alike, self.different)
    }

    pub fn line(&self) -> String {
        let Self { alike, broken, seen, different } = self;
        format!(
            "{alike} pairs of runs that meet the premises, {different} different; {broken} that break one, {seen} of them different"
        )
    }
}

/// Compares pairs of runs of a side.
pub fn compare(side: &Library, from: u64, cases: u64, coverage: &mut Coverage) -> Counts {
    let mut counts = Counts::default();
    for seed in random::seeds(from, cases) {
        if let Err(fault) = compare_seed(side, seed, &mut counts, coverage) {
            counts.different += 1;
            if counts.different <= 3 {
                println!("seed {seed}: {fault}");
            }
        }
    }
    counts
}

/// Places tried for an insertion.
const TRIES: usize = 30;

/// Compares a pair of runs of a seed, both at level 2 once in three times, with short paths once in four; one in two meets
/// all premises.
pub fn compare_seed(
    side: &Library,
    seed: u64,
    counts: &mut Counts,
    coverage: &mut Coverage,
) -> Result<(), String> {
    let random = &mut Random::new(seed ^ 0x9a15);
    let size = match seed % 400 {
        ..380 => Size::Small,
        380..398 => Size::Middle,
        _ => Size::Limit,
    };
    let level = if (seed / 2).is_multiple_of(3) { UNSIGNED } else { SIGNED };
    let short = (seed / 2) % 4 == 3;
    let case = with_room(if short { generate_short(seed, size, level) } else { generate(seed, size, level) });
    let kind = if seed.is_multiple_of(2) { 0 } else { 1 + (seed / 2) as usize % (KINDS.len() - 1) };
    for _ in 0..TRIES {
        if let Some(pair) = Pair::made(&case, &KINDS[kind], short, random) {
            return pair.compare(side, counts, coverage);
        }
    }
    Ok(())
}

/// A description without its last top items, where it would leave no room for two more.
fn with_room(case: Case) -> Case {
    if tree::count(&case.top) < MOST_RECORDS - ROOM {
        return case;
    }
    let (mut top, told) = (case.top, case.records);
    while tree::count(&top) > MOST_RECORDS - ROOM {
        top.pop();
    }
    Case::known(top, told.level).of_files(&told.starts)
}

/// Records left for the two.
const ROOM: usize = 100;

/// A description, and an insertion of a kind.
struct Pair<'a> {
    case: &'a Case,
    kind: &'static Kind,
    spot: Spot,
    inserted: Inserted,
    ground: Ground,
    new: Vec<u8>,
    /// Run B's description.
    top: Vec<Rec>,
    records: Records,
}

impl<'a> Pair<'a> {
    /// Some place in a description, if an insertion there breaks just the premises of its kind.
    fn made(case: &'a Case, kind: &'static Kind, short: bool, random: &mut Random) -> Option<Self> {
        let spot = Spot::any(&case.top, random);
        let wants_top = kind.breaks == [Premise::EntersMainLog, Premise::Silent];
        if spot.is_top() != wants_top {
            return None;
        }
        let level = case.records.level;
        let ground = Ground::at(&case.top, level, &spot);
        let inserted = (kind.make)(&mut Hand::new(Random::new(random.next()), &ground, short))?;
        let (new, broken) = premises::judged(&case.top, &spot, &ground, &inserted);
        let top = inserted.put_into(&case.top, &spot);
        if broken != kind.breaks || tree::count(&top) >= MOST_RECORDS {
            return None;
        }
        let order = random.pick(&[Order::Down, Order::Across, Order::Any]);
        let layout = Layout { order, shared: random.once_in(2), noise: false };
        let records = records::write(&top, level, layout, random);
        let records = Records { starts: case.records.starts.clone(), ..records };
        let accepted = by_01::rows::refusal(&records).is_none();
        accepted.then_some(Self { case, kind, spot, inserted, ground, new, top, records })
    }

    fn compare(&self, side: &Library, counts: &mut Counts, coverage: &mut Coverage) -> Result<(), String> {
        let level = self.case.records.level;
        let (of_a, of_b) =
            (by_01::lower::lower(&self.case.top, level), by_01::lower::lower(&self.top, level));
        let a = run(side, &self.case.records, &of_a)?;
        let b = run(side, &self.records, &of_b)?;
        let asked = alike::asked(&a, &b, &self.new, PATHS);
        let found = alike::differences(&side.queries, &a, &b, &self.new, &asked)?;
        if self.kind.breaks.is_empty() {
            counts.alike += 1;
            self.note(&of_a, &of_b, coverage);
            self.note_level(&of_a.answer, &of_b.answer, coverage);
            let (before, starts) = (self.ground.before.definitions.len(), &self.records.starts);
            let files = files::seen(&of_a.answer, &of_b.answer, before, starts);
            for what in short_paths::seen(&of_a, self.ground.looks, &self.new).into_iter().chain(files) {
                coverage.add(met(what), 1);
            }
            return if found.is_empty() { Ok(()) } else { Err(self.shown(&found)) };
        }
        counts.broken += 1;
        counts.seen += u64::from(!found.is_empty());
        coverage.add(shows(self.kind), (!found.is_empty()).into());
        coverage.add_if(BROKEN_AT_LEVEL_2.to_owned(), level == UNSIGNED && !found.is_empty());
        for part in found {
            coverage.add(part_differs(part), 1);
        }
        Ok(())
    }

    /// Both runs' descriptions, and what differs.
    fn shown(&self, found: &[&str]) -> String {
        let written = notation::written;
        let Inserted { first, second, .. } = &self.inserted;
        format!(
            "not alike: {}\n  A: {}\n  B: {}\n  the two: {}",
            found.join(", "),
            written(&self.case.top),
            written(&self.top),
            written(&[first.clone(), second.clone()])
        )
    }

    /// Notes of a pair at level 2 that meets the premises what level 1 gives otherwise.
    fn note_level(&self, a: &Answer, b: &Answer, coverage: &mut Coverage) {
        if self.case.records.level != UNSIGNED {
            return;
        }
        let signed = |top: &[Rec]| by_01::lower::lower(top, SIGNED).answer;
        let in_new = |log: &Answer| -> Vec<Definition> {
            log.definitions.iter().filter(|made| under(&made.path, &self.new)).cloned().collect()
        };
        let holds = [true, signed(&self.case.top) != *a, in_new(&signed(&self.top)) != in_new(b)];
        for (what, holds) in MET_AT_LEVEL_2.into_iter().zip(holds) {
            coverage.add(met(what), holds.into());
        }
    }

    /// Notes what a pair that meets the premises has.
    fn note(&self, of_a: &Lowered, of_b: &Lowered, coverage: &mut Coverage) {
        let (new, before) = (&self.new, &self.ground.before);
        let (a, b) = (&of_a.answer, &of_b.answer);
        let labels = b.definitions.iter().filter(|made| under(&made.path, new)).flat_map(|made| &made.labels);
        let known = |label: &Vec<u8>| a.bindings.iter().any(|binding| binding.label == *label);
        let there = |log: &[Definition]| log.iter().any(|made| under(&made.path, new));
        let node = self.spot.node(&self.case.top);
        let next = self.spot.next(&self.case.top);
        let inner = &self.inserted.first.more;
        let holds = [
            node.is_some_and(|node| node.first(tree::REFERENCE).is_some()),
            self.spot.links() > 5,
            there(&before.definitions),
            there(&a.definitions) && !there(&before.definitions),
            labels.into_iter().any(known),
            by_01::queries::has_plugin(&a.definitions),
            !a.extensions.is_empty(),
            !a.lowering.is_empty() && !a.post.is_empty(),
            next.is_some_and(|next| next.kind == tree::DIRECTIVE && next.w <= 2),
            inner.iter().any(|item| item.kind == tree::NODE && item.first(tree::LABEL).is_some()),
            inner.iter().any(|item| item.kind == tree::PROPERTY),
            inner.iter().any(|item| item.kind == tree::DIRECTIVE && item.w == 4),
            tree::count(&self.case.top) > 1000,
        ];
        for (what, holds) in MET.into_iter().zip(holds) {
            coverage.add(met(what), holds.into());
        }
    }
}

/// What is to come up among pairs that meet the premises.
const MET: [&str; 13] = [
    "in a body that a reference reopened",
    "more than five links deep",
    "where something was deleted before",
    "where something is made later",
    "with a label that is bound elsewhere",
    "in an overlay",
    "beside extensions",
    "beside diagnostics of lowering and of the post checks",
    "before a version or plugin directive",
    "with a labelled node in it",
    "with a property in it",
    "with a deletion in it",
    "in a description of more than 1,000 records",
];

/// What is to come up among those at level 2.
const MET_AT_LEVEL_2: [&str; 3] = [
    "at level 2",
    "at level 2, where level 1 gives another log",
    "at level 2, with a value in the new subnode that level 1 gives otherwise",
];

/// A pair at level 2 that breaks a premise.
const BROKEN_AT_LEVEL_2: &str = "a premise broken at level 2: a difference";

fn met(what: &str) -> String {
    format!("premises met, {what}")
}

fn shows(kind: &Kind) -> String {
    format!("{}: a difference", kind.name)
}

fn part_differs(part: &str) -> String {
    format!("a difference in {part}")
}

/// What is to come up: a difference for each broken premise and in each part, and what pairs have that
/// meet them.
pub fn wanted() -> Coverage {
    let kinds = KINDS[1..].iter().map(shows);
    let parts = alike::PARTS.into_iter().map(part_differs);
    let pairs =
        MET.into_iter().chain(MET_AT_LEVEL_2).chain(short_paths::WANTED).chain(files::WANTED).map(met);
    Coverage::wanting(kinds.chain(parts).chain(pairs).chain([BROKEN_AT_LEVEL_2.to_owned()]))
}

/// Paths asked for in a pair of runs, about.
const PATHS: usize = 200;

/// Lowers into buffers with just enough room.
fn run(side: &Library, records: &Records, due: &Lowered) -> Result<Run, String> {
    let mut room = Room::new(due.records as usize * RECORD, due.bytes as usize);
    match room.lower(side.lower, records)? {
        (0, 0) => Ok(Run { words: room.words().to_vec(), bytes: room.bytes().to_vec() }),
        answer => Err(format!("lowering answers {answer:?}")),
    }
}
