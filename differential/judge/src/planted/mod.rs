//! Faults planted into our lowering's answers: the comparison must find each.
//!
//! Of 01's slips, counting "" as under "/" does not show in what lowering writes: only nodes are
//! resolved and unbound, and no node has the path "". It is planted into the queries (`logs::faults`).

mod files;
mod level_2;
mod short_paths;
mod slips;
mod words;
mod wrong;

use crate::{
    coverage::Coverage,
    damaged,
    levels::{alike, has_expression},
    library::{Library, Lower, Queries},
    ours, pairs,
    records::{Records, SIGNED, UNSIGNED},
    trees::{self, judged, size_of_case},
};

/// The comparison that must find a fault.
#[derive(Clone, Copy)]
enum By {
    /// The Rust's lowerings of generated descriptions.
    Rust,
    /// The same at level 2.
    Level2,
    /// Descriptions without an expression cell at both levels.
    Alike,
    /// Descriptions with short paths.
    ShortPaths,
    /// Descriptions of several files, and as one.
    Files,
    /// 18, rows 1 to 7 and 14.
    Rows,
    /// Pairs of runs.
    Pairs,
}

/// A fault: its name, the comparison that must find it, and lowering with the fault.
type Fault = (&'static str, By, Lower);

/// Seeds among which a fault must be found.
const SEEDS: u64 = 4_000;

/// Where each planted fault is found first, if it is. Our library must be there.
pub fn found() -> Vec<(&'static str, Option<String>)> {
    let lowerings = wrong::FAULTS.iter().chain(&words::FAULTS).chain(&slips::FAULTS).chain(&level_2::FAULTS);
    let lowerings = lowerings.chain(&short_paths::FAULTS).chain(&files::FAULTS);
    let sides = lowerings.map(|(name, by, lower)| (*name, *by, Library { lower: *lower, ..ours() }));
    let queries = Queries { live: slips::deleted_live, ..ours().queries };
    let pairs = ("pairs: deleted definitions stay live", By::Pairs, Library { queries, ..ours() });
    let queries = Queries { contains_node: short_paths::contains_short, ..ours().queries };
    let contains = ("short paths: contains_node takes them", By::ShortPaths, Library { queries, ..ours() });
    sides.chain([pairs, contains]).map(|(name, by, side)| (name, first_difference(&side, by))).collect()
}

/// Our side; that it is there was looked at before.
fn ours() -> Library {
    ours::library().expect("our library")
}

/// Our lowering.
fn lower(records: &Records, words: &mut [u32], bytes: &mut [u8]) -> (u32, u32) {
    (ours().lower)(records, words, bytes)
}

/// Compares a side with the Rust on the description of a seed at a level.
fn compare_judged(side: &Library, seed: u64, level: u32) -> Result<(), String> {
    let judged = judged(seed, size_of_case(seed), level, 3);
    trees::whole_side(side, seed, &judged)
}

/// Compares a side on the description of a seed with its files, and as one.
fn compare_files(side: &Library, seed: u64) -> Result<(), String> {
    let judged = crate::files::judged_of(seed, 3);
    trees::whole_side(side, seed, &judged)?;
    crate::files::one_file(side, seed, &judged)
}

fn first_difference(side: &Library, by: By) -> Option<String> {
    let coverage = &mut Coverage::empty();
    (0..SEEDS).find_map(|seed| {
        let result = match by {
            By::Rust => compare_judged(side, seed, SIGNED),
            By::Level2 => compare_judged(side, seed, UNSIGNED),
            By::Alike => {
                let judged = judged(seed, size_of_case(seed), UNSIGNED, 0);
                if has_expression(&judged.case.top) { Ok(()) } else { alike(side, seed, &judged) }
            }
            By::ShortPaths => trees::whole_side(side, seed, &crate::short_paths::judged(seed, 12)),
            By::Files => compare_files(side, seed),
            By::Rows => damaged::compare_seed(side, seed, &mut damaged::Counts::default(), coverage),
            By::Pairs => pairs::compare_seed(side, seed, &mut pairs::Counts::default(), coverage),
        };
        let fault = result.err()?;
        Some(format!("seed {seed}, {}", fault.lines().next().unwrap_or_default()))
    })
}
