//! Descriptions: the Rust against 01's sentences, and what came up. One in which a look-up goes by 02's second rule is
//! set aside as a whole: 01's and 02's sentences answer it alone.

use crate::{
    answer::{Answer, Query, Text},
    by_01::{self, lower::Lowered, paths},
    by_02::short_paths::before_at,
    counts,
    coverage::Coverage,
    crate_tree::crate_tree,
    generate::{Case, Size, generate},
    judge::judge,
    library::Library,
    logs, notation,
    random::{self, Random},
    records::{RECORD, Records, SIGNED, read},
    short_paths::in_full,
    shrink::shrunk,
    text_form::text_form,
    tree::{self, Place, Rec, walk},
    whole::{self, Due},
};

/// A case with what 01's sentences give, and the answers that are due: the Rust's, or where the case is set aside
/// those of the sentences.
pub struct Judged {
    pub case: Case,
    pub by_01: Lowered,
    pub answer: Answer,
    pub queries: Vec<Query>,
}

impl Judged {
    /// Whether the case is set aside: the Rust does not have 02's second rule.
    pub fn is_aside(&self) -> bool {
        self.by_01.is_short()
    }
}

/// The size of a case by its number: mostly small, some middle, few at the limits.
pub fn size_of_case(number: u64) -> Size {
    match number % 200 {
        ..180 => Size::Small,
        180..199 => Size::Middle,
        _ => Size::Limit,
    }
}

pub fn judged(seed: u64, size: Size, level: u32, most_queries: usize) -> Judged {
    judged_case(generate(seed, size, level), most_queries)
}

pub fn judged_case(case: Case, most_queries: usize) -> Judged {
    let by_01 = by_01::lower::lower(&case.top, case.records.level);
    let (answer, queries) = if by_01.is_short() {
        let paths = query_paths(&by_01.answer, most_queries);
        let queries = logs::rust::queries(&by_01.answer.definitions, paths);
        (by_01.answer.clone(), queries)
    } else {
        by_the_rust(&case, most_queries)
    };
    Judged { case, by_01, answer, queries }
}

/// A known description at a level, and the answers that are due.
pub fn judged_tree(top: &[Rec], level: u32, most_queries: usize) -> Judged {
    judged_case(Case::known(top.to_vec(), level), most_queries)
}

/// How many diagnostics follow 01's rule in the Rust's stead.
pub fn by_rule(answer: &Answer) -> u64 {
    answer.lowering.iter().filter(|found| matches!(found.code, 9 | 24..=26)).count() as u64
}

/// The Rust's answers to a description and to queries on it, whatever looks paths up in it.
pub fn by_the_rust(case: &Case, most_queries: usize) -> (Answer, Vec<Query>) {
    let tree = crate_tree(&case.top, case.records.level, case.look);
    judge(&tree, |answer| query_paths(answer, most_queries))
}

/// Whether a name holds @, by a unit address or by itself.
fn has_at(top: &[Rec]) -> bool {
    let mut found = false;
    walk(top, Place::TopItem, 1, &mut |rec, _, _| {
        found |= rec.kind == tree::UNIT_ADDRESS || rec.kind == tree::NAME && rec.text.contains(&b'@');
    });
    found
}

/// A path with all unit addresses left out, if it has some.
fn short_of(path: &[u8]) -> Option<Text> {
    let names: Vec<&[u8]> = path.split(|byte| *byte == b'/').map(before_at).collect();
    path.contains(&b'@').then(|| names.join(&b'/'))
}

/// Paths to ask for: "", "/", those of the log and of the bindings, those above and near them, and these in short.
fn query_paths(answer: &Answer, most: usize) -> Vec<Text> {
    let mut asked: Vec<Text> = vec![Vec::new(), b"/".to_vec()];
    let logs =
        answer.definitions.iter().chain(answer.extensions.iter().flat_map(|extension| &extension.body));
    let known =
        logs.map(|definition| &definition.path).chain(answer.bindings.iter().map(|binding| &binding.path));
    for path in known {
        let above = path.iter().rposition(|byte| *byte == b'/').map_or(0, |slash| slash.max(1));
        let near = [[path, &b"b"[..]].concat(), [path, &b"/a"[..]].concat()];
        for path in [path.clone(), path[..above].to_vec()].into_iter().chain(near).chain(short_of(path)) {
            if asked.len() < most && paths::is_path(&path) && !asked.contains(&path) {
                asked.push(path);
            }
        }
    }
    asked
}

/// What a comparison counted: descriptions, those on which 01's sentences and the Rust differ, those set aside as a
/// whole, those in which no name holds @, and those on which a side differs from what is due.
#[derive(Default)]
pub struct Counts {
    pub compared: u64,
    pub different: u64,
    pub aside: u64,
    pub without_at: u64,
    pub lowered: u64,
    pub lowered_different: u64,
    pub by_rule: u64,
    pub records: u64,
    pub queries: u64,
}

impl Counts {
    /// As a part of a run: each description is compared with the side, and with 01's sentences unless it is set aside.
    pub fn total(&self) -> counts::Counts {
        counts::Counts {
            compared: self.compared + self.lowered,
            different: self.different + self.lowered_different,
            aside: self.by_rule + self.aside,
        }
    }

    pub fn line(&self) -> String {
        let Self { compared, different, aside, without_at, lowered, lowered_different, .. } = self;
        let Self { by_rule, records, queries, .. } = self;
        format!(
            "{compared} descriptions with {records} records and {queries} queries, {different} different; \
             {by_rule} diagnostics by 01's rule (codes 9, 24 to 26)\n\
             {aside} more set aside as a whole for a short path (02, request 5), which the Rust answers in full; \
             none of {without_at} where no name holds @\n\
             {lowered} of all lowered by ours, {lowered_different} different"
        )
    }
}

/// Compares the Rust with 01's sentences and with a side on `cases` descriptions at level 1.
pub fn compare(side: &Library, from: u64, cases: u64, coverage: &mut Coverage) -> Counts {
    let mut counts = Counts::default();
    for seed in random::seeds(from, cases) {
        let judged = judged(seed, size_of_case(seed), SIGNED, 40);
        compare_judged(side, seed, &judged, &mut counts);
        if !judged.is_aside() {
            coverage.note(&judged);
        }
    }
    counts
}

/// Compares what is due for a description with 01's sentences and with a side.
pub fn compare_judged(side: &Library, seed: u64, judged: &Judged, counts: &mut Counts) {
    let Judged { case, by_01, answer, queries } = judged;
    assert_eq!(read(&case.records), case.top, "seed {seed}: records and tree differ");
    assert_eq!(by_01::rows::refusal(&case.records), None, "seed {seed}: refused");
    counted(seed, judged, counts);
    if (&by_01.answer, &queries_by_01(&by_01.answer, queries)) != (answer, queries) {
        counts.different += 1;
        if counts.different <= 3 {
            show_difference(seed, case);
        }
    }
    if let Some(part) = judged.is_aside().then(|| in_full::difference(judged)).flatten() {
        counts.different += 1;
        println!(
            "seed {seed}: {part} differ, 02's sentences and the Rust in full\n  {}",
            notation::written(&case.top)
        );
    }
    compare_side(side, seed, judged, counts);
}

/// Counts a description. Where no name holds @, none may be set aside.
fn counted(seed: u64, judged: &Judged, counts: &mut Counts) {
    let Judged { case, answer, queries, .. } = judged;
    counts.without_at += u64::from(!has_at(&case.top));
    if judged.is_aside() {
        assert!(has_at(&case.top), "seed {seed}: set aside though no name holds @");
        counts.aside += 1;
        return;
    }
    counts.compared += 1;
    counts.by_rule += by_rule(answer);
    counts.queries += 3 * queries.len() as u64;
    counts.records += (case.records.words.len() / RECORD) as u64;
}

/// Compares a side with what is due, and counts it.
fn compare_side(side: &Library, seed: u64, judged: &Judged, counts: &mut Counts) {
    counts.lowered += 1;
    if let Err(fault) = whole_side(side, seed, judged) {
        counts.lowered_different += 1;
        if counts.lowered_different <= 3 {
            println!("seed {seed}: {fault}");
            let fault_of = |top: &[Rec]| fault_of(side, top, &judged.case.records);
            let smaller = shrunk(judged.case.top.clone(), &|top| fault_of(top).is_some());
            let fault = fault_of(&smaller).unwrap_or("not if written plainly".to_owned());
            let starts = &judged.case.records.starts;
            println!("  {}\n  files from {starts:?}: {fault}", notation::written(&smaller));
        }
    }
}

/// Where a side differs from what is due; row 7's counts are by 01.
pub fn whole_side(side: &Library, seed: u64, judged: &Judged) -> Result<(), String> {
    let made = (judged.by_01.records, judged.by_01.bytes);
    let due = Due { records: &judged.case.records, answer: &judged.answer, made };
    whole::compare(side, &due, &judged.queries, &mut Random::new(seed))
}

/// Where a side differs from what is due for a description that is written plainly and told as these records are.
pub fn fault_of(side: &Library, top: &[Rec], told: &Records) -> Option<String> {
    let case = Case::known(top.to_vec(), told.level).of_files(&told.starts);
    whole_side(side, 0, &judged_case(case, 40)).err()
}

fn queries_by_01(answer: &Answer, asked: &[Query]) -> Vec<Query> {
    asked.iter().map(|query| by_01::queries::query(&answer.definitions, query.path.clone())).collect()
}

/// Shows the lines that differ, and a smaller description with a difference.
fn show_difference(seed: u64, case: &Case) {
    println!("seed {seed}: 01's sentences and the Rust differ");
    let difference = |top: &[Rec]| {
        let known = Case::known(top.to_vec(), case.records.level);
        difference(&judged_case(Case { look: case.look, ..known }, 40))
    };
    let smaller = shrunk(case.top.clone(), &|top| !difference(top).is_empty());
    println!("  {}", notation::written(&smaller));
    for (by_01, rust) in difference(&smaller).iter().take(5) {
        println!("  01:   {by_01}\n  Rust: {rust}");
    }
}

/// The lines of the text form in which 01's sentences and what is due differ.
pub fn difference(judged: &Judged) -> Vec<(String, String)> {
    let Judged { by_01: Lowered { answer: by_01, .. }, answer, queries, .. } = judged;
    let by_01 = text_form(by_01, &queries_by_01(by_01, queries));
    let rust = text_form(answer, queries);
    let (mut by_01, mut rust) = (by_01.lines(), rust.lines());
    let mut found = Vec::new();
    loop {
        match (by_01.next(), rust.next()) {
            (None, None) => return found,
            (one, other) if one != other => {
                found.push((one.unwrap_or("(end)").to_owned(), other.unwrap_or("(end)").to_owned()));
            }
            _ => {}
        }
    }
}
