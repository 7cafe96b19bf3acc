//! Descriptions at level 2 (02, request 10): those with an expression cell against the Rust, which is shown
//! what 02's sentences give for it; those without one at both levels, which must lower alike.

pub mod speed;
mod wanted;

pub use wanted::{note, wanted};

use crate::{
    answer::Answer,
    by_01::lower::Lowered,
    counts,
    coverage::Coverage,
    library::Library,
    output::RECORD,
    random::{self, Random},
    records::{Records, SIGNED, UNSIGNED},
    room::Room,
    tree::{self, Place, Rec, walk},
    trees::{self, Judged, judged, size_of_case},
    whole::{self, Due},
};

/// What a comparison counted: descriptions with an expression cell, and those without.
#[derive(Default)]
pub struct Counts {
    pub with: trees::Counts,
    pub without: u64,
    /// Of these, set aside as a whole for a short path.
    pub aside: u64,
    pub not_alike: u64,
    /// Answers with a code that level 2 never gives.
    pub never: u64,
}

impl Counts {
    /// As a part of a run.
    pub fn total(&self) -> counts::Counts {
        let without = counts::Counts::of(self.without, self.not_alike + self.never);
        self.with.total() + counts::Counts { aside: self.aside, ..without }
    }

    pub fn line(&self) -> String {
        let Self { with, without, aside, not_alike, never } = self;
        format!(
            "with an expression cell: {}\n{without} without one lowered by ours at both levels, {not_alike} not alike, \
             {aside} of them set aside\n\
             {never} answers with code 19 or 24",
            with.line()
        )
    }
}

/// Whether a description has an expression cell.
pub fn has_expression(top: &[Rec]) -> bool {
    let mut found = false;
    walk(top, Place::TopItem, 1, &mut |rec, _, _| found |= rec.kind == tree::EXPRESSION);
    found
}

/// Compares on the descriptions of seeds until so many with an expression cell came up.
pub fn compare(side: &Library, from: u64, cases: u64, coverage: &mut Coverage) -> Counts {
    let mut counts = Counts::default();
    for seed in random::seeds(from, u64::MAX - from) {
        if counts.with.compared == cases {
            break;
        }
        let judged = judged(seed, size_of_case(seed), UNSIGNED, 40);
        if has_expression(&judged.case.top) {
            trees::compare_judged(side, seed, &judged, &mut counts.with);
            note(&judged, coverage);
            if has_signed_code(&judged.answer) {
                counts.never += 1;
                println!("seed {seed}: code 19 or 24 at level 2");
            }
        } else {
            counts.without += 1;
            counts.aside += u64::from(judged.is_aside());
            if let Err(fault) = alike(side, seed, &judged) {
                counts.not_alike += 1;
                if counts.not_alike <= 3 {
                    println!("seed {seed}, without an expression cell: {fault}");
                }
            }
        }
    }
    counts
}

/// Whether an answer has a code that only the signed rule gives: a number too small, a result outside.
fn has_signed_code(answer: &Answer) -> bool {
    answer.lowering.iter().any(|found| matches!(found.code, 19 | 24))
}

/// Lowers a description without an expression cell at both levels: the Rust's log, and the same in every
/// word and byte.
pub fn alike(side: &Library, seed: u64, judged: &Judged) -> Result<(), String> {
    let Judged { case, by_01: Lowered { records, bytes, .. }, answer, .. } = judged;
    let random = &mut Random::new(seed);
    let due = Due { records: &case.records, answer, made: (*records, *bytes) };
    let lent = (*records as usize * RECORD + random.below(2 * RECORD), *bytes as usize + random.below(9));
    let (unsigned, _) = whole::lowered(side, &due, lent.0, lent.1)?;
    let mut signed = Room::new(lent.0, lent.1);
    let answer = signed.lower(side.lower, &Records { level: SIGNED, ..case.records.clone() })?;
    if answer != (0, 0) {
        return Err(format!("{answer:?} at level 1"));
    }
    let same = signed.words() == unsigned.words() && signed.bytes() == unsigned.bytes();
    if same { Ok(()) } else { Err("the levels write other things".to_owned()) }
}
