//! Short paths (02, request 5): descriptions whose references leave unit addresses out. Where a look-up goes by the
//! second rule, 01's and 02's sentences answer; else the Rust does.

pub mod in_full;
pub mod speed;
mod wanted;

pub use wanted::{note, wanted};

use crate::{
    coverage::Coverage,
    generate::generate_short,
    library::Library,
    random,
    records::{SIGNED, UNSIGNED},
    trees::{self, Counts, Judged, judged_case, size_of_case},
};

/// The description of a seed, at level 2 once in three times.
pub fn judged(seed: u64, most_queries: usize) -> Judged {
    let level = if seed % 3 == 2 { UNSIGNED } else { SIGNED };
    judged_case(generate_short(seed, size_of_case(seed), level), most_queries)
}

/// Compares a side on as many descriptions.
pub fn compare(side: &Library, from: u64, cases: u64, coverage: &mut Coverage) -> Counts {
    let mut counts = Counts::default();
    for seed in random::seeds(from, cases) {
        let judged = judged(seed, 40);
        trees::compare_judged(side, seed, &judged, &mut counts);
        note(&judged, coverage);
    }
    counts
}
