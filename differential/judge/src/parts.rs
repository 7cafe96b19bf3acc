//! The parts of a run, each with its lines: how many were compared, and how many differ.

use crate::{
    boxes::{self, Boxes},
    counts::Counts,
    coverage::Coverage,
    damaged, files, levels,
    library::{self, Library},
    logs, numbers,
    ours::Leaves,
    pairs, planted,
    records::{SIGNED, UNSIGNED},
    short_paths, slashes, small,
    trees::{self, judged, size_of_case},
};

/// How much of each part a run has.
pub struct Sizes {
    pub descriptions: u64,
    /// Descriptions at level 2 that have an expression cell.
    pub levels: u64,
    /// Descriptions whose references leave unit addresses out.
    pub short_paths: u64,
    /// Descriptions of up to 16 files, lowered as one too.
    pub files: u64,
    pub damaged: u64,
    /// Pairs of runs tried, one in two to meet the premises of demand 3.
    pub pairs: u64,
    /// Logs for which queries are compared, as made and damaged.
    pub logs: u64,
}

/// All of it.
pub const ALL: Sizes = Sizes {
    descriptions: 200_000,
    levels: 100_000,
    short_paths: 100_000,
    files: 50_000,
    damaged: 100_000,
    pairs: 50_000,
    logs: 120_000,
};

/// A run of a minute.
pub const SHORT: Sizes = Sizes {
    descriptions: 20_000,
    levels: 10_000,
    short_paths: 10_000,
    files: 10_000,
    damaged: 20_000,
    pairs: 5_000,
    logs: 12_000,
};

/// Descriptions of each level, and with short paths, for which 01's sentences are compared as a whole side.
const BY_01: u64 = 4_000;

/// Prints a coverage report and what was counted, at one go; fails if something never came up.
fn reported(coverage: &Coverage, of: &str, counted: &str) -> Result<(), String> {
    let (report, missing) = coverage.report();
    println!("{report}{counted}");
    if missing.is_empty() { Ok(()) } else { Err(format!("never came up in {of}: {}", missing.join(", "))) }
}

/// The leaves.
pub fn numbers(ours: &Leaves) -> Result<Counts, String> {
    let sides = [("01's and 02's sentences", &numbers::by_01()), ("our library", ours)];
    let compared = sides.map(|(name, side)| {
        println!("numbers and paths, the Rust against {name}:");
        leaves(side, u64::MAX)
    });
    compared.into_iter().sum()
}

/// The leaves of one side, at most so many inputs of each, with the coverage report.
pub fn leaves(side: &Leaves, most: u64) -> Result<Counts, String> {
    let mut coverage = numbers::wanted(side);
    let lines = numbers::compare(side, most, &mut coverage);
    let line = |(leaf, Counts { compared, different, aside }): &(&str, Counts)| {
        let panics = if *aside == 0 { String::new() } else { format!(", {aside} by 01's rule") };
        format!("{compared:>9} {leaf}, {different} different{panics}")
    };
    let counted: Vec<String> = lines.iter().map(line).collect();
    reported(&coverage, "numbers", &counted.join("\n"))?;
    Ok(lines.into_iter().map(|(_, counts)| counts).sum())
}

/// Box numbers, with the coverage report.
pub fn boxes(ours: &Boxes) -> Result<Counts, String> {
    println!("box numbers, 02's sentences against our library:");
    let mut coverage = boxes::wanted();
    let counts = boxes::compare(ours, u64::MAX, &mut coverage);
    reported(&coverage, "box numbers", &counts.line())?;
    Ok(counts.total())
}

/// Small descriptions with their known answers.
pub fn small(side: &Library) -> Result<Counts, String> {
    let counts = small::compare(side)?;
    let Counts { compared, different, .. } = counts;
    println!("small descriptions with known lines: {compared} compared, {different} different");
    Ok(counts)
}

/// Descriptions, with the coverage report.
pub fn descriptions(side: &Library, from: u64, cases: u64) -> Result<Counts, String> {
    println!("descriptions, the Rust against 01's sentences and our lowering:");
    let mut coverage = Coverage::of_descriptions();
    let counts = trees::compare(side, from, cases, &mut coverage);
    reported(&coverage, &format!("{cases} cases"), &counts.line())?;
    Ok(counts.total())
}

/// Descriptions at level 2, and those without an expression cell at both, with the coverage report.
pub fn levels(side: &Library, from: u64, cases: u64) -> Result<Counts, String> {
    println!("level 2, the Rust with 02's sentences against 01's and our lowering:");
    let mut coverage = levels::wanted();
    let counts = levels::compare(side, from, cases, &mut coverage);
    reported(&coverage, &format!("{cases} cases at level 2"), &counts.line())?;
    Ok(counts.total())
}

/// Descriptions whose references leave unit addresses out, with the coverage report.
pub fn short_paths(side: &Library, from: u64, cases: u64) -> Result<Counts, String> {
    println!("short paths, 02's sentences and the Rust against our lowering:");
    let mut coverage = short_paths::wanted();
    let counts = short_paths::compare(side, from, cases, &mut coverage);
    reported(&coverage, &format!("{cases} cases of short paths"), &counts.line())?;
    Ok(counts.total())
}

/// Descriptions of up to 16 files, and as one, with the coverage report.
pub fn files(side: &Library, from: u64, cases: u64) -> Result<Counts, String> {
    println!("files, 02's sentences on the Rust's spans against our lowering:");
    let mut coverage = files::wanted();
    let counts = files::compare(side, from, cases, &mut coverage);
    reported(&coverage, &format!("{cases} cases of files"), &counts.line())?;
    Ok(counts.total())
}

/// 01's and 02's sentences as a whole side at both levels and with short paths, which shows that the comparison itself
/// is sound.
pub fn sentences() -> Counts {
    let side = library::by_01();
    let mut counts = Counts::default();
    let of_level =
        |level: u32| (0..BY_01).map(move |seed| (seed, judged(seed, size_of_case(seed), level, 12)));
    let short = (0..BY_01).map(|seed| (seed, short_paths::judged(seed, 12)));
    for (seed, judged) in [SIGNED, UNSIGNED].into_iter().flat_map(of_level).chain(short) {
        counts.compared += 1;
        counts.aside += if judged.is_aside() { 1 } else { trees::by_rule(&judged.answer) };
        if let Err(fault) = trees::whole_side(&side, seed, &judged) {
            counts.different += 1;
            println!("level {}, seed {seed}: {fault}", judged.case.records.level);
        }
    }
    let Counts { compared, different, .. } = counts;
    println!(
        "records in and out, the Rust and 02's sentences against 01's: {compared} compared, {different} different"
    );
    counts
}

/// Damaged descriptions and those at the limits, 18, rows 1 to 7 and 14, with the coverage report.
pub fn damaged(side: &Library, from: u64, inputs: u64) -> Result<Counts, String> {
    println!("damaged descriptions, 18, rows 1 to 7 and 14 against our lowering:");
    let mut coverage = damaged::wanted();
    let counts = damaged::compare(side, from, inputs, &mut coverage);
    let complete = reported(&coverage, &format!("{inputs} descriptions"), &counts.line());
    let further = limits(side);
    complete?;
    Ok(counts.total() + further)
}

/// Each kind in each place, and row 7's own limits.
pub fn limits(side: &Library) -> Counts {
    let mut counts = damaged::Counts::default();
    let mut faults = damaged::tables::compare(side, &mut counts);
    println!("each kind in each place: {} lowerings, {} different", counts.inputs, faults.len());
    let (calls, at_limits) = damaged::limits::compare(side);
    println!("row 7's own limits: {calls} lowerings, {} different", at_limits.len());
    faults.extend(at_limits);
    for fault in faults.iter().take(5) {
        println!("{fault}");
    }
    Counts::of(counts.inputs + calls, faults.len() as u64)
}

/// Pairs of runs, demand 3, with the coverage report.
pub fn pairs(side: &Library, from: u64, cases: u64) -> Result<Counts, String> {
    println!("demand 3, pairs of runs of our lowering:");
    let mut coverage = pairs::wanted();
    let counts = pairs::compare(side, from, cases, &mut coverage);
    reported(&coverage, &format!("{cases} cases"), &counts.line())?;
    Ok(counts.total())
}

/// Queries of logs that are lent, with the coverage report.
pub fn queries(side: &Library, from: u64, logs: u64) -> Result<Counts, String> {
    println!("queries of lent logs, the Rust and rows 8 to 10 against our library:");
    let mut coverage = logs::wanted();
    let counts = logs::compare(&side.queries, from, logs, &mut coverage);
    reported(&coverage, &format!("{logs} logs"), &counts.line())?;
    Ok(counts.total())
}

/// Faults planted into our answers; fails if the comparison does not find one. Our library must be there.
pub fn planted() -> Result<(), String> {
    let mut found = logs::faults::found();
    found.extend(planted::found());
    found.extend(slashes::faults::found());
    found.extend(boxes::faults::found());
    all_found(&found)
}

/// Prints how each planted fault was found; fails if one was not.
pub fn all_found(found: &[(&str, Option<String>)]) -> Result<(), String> {
    for (name, difference) in found {
        println!("{name}: {}", difference.as_deref().unwrap_or("not found"));
    }
    let missed = found.iter().filter(|(_, difference)| difference.is_none()).count();
    println!("{} planted faults found, {missed} not found", found.len() - missed);
    if missed == 0 { Ok(()) } else { Err("the comparison misses a fault".to_owned()) }
}
