//! Which file a span came from (02, request 3): descriptions of up to 16 files at both levels and with short paths, each lowered
//! as one file too, which must give the same log but for words 13 and 14.

pub mod speed;
mod wanted;

pub use wanted::{note, spans, wanted};

use crate::{
    by_01::lower::Lowered,
    counts,
    coverage::Coverage,
    library::Library,
    output::RECORD,
    random::{self, Random},
    records::{ONE_FILE, Records, SIGNED, UNSIGNED},
    room::Room,
    short_paths,
    trees::{self, Judged, judged, size_of_case},
};

/// The first seed of a whole run: so the descriptions are others than those of the parts before.
pub const FROM: u64 = 1_000_000;

/// What a comparison counted: descriptions with their lists, and those that differ as one file.
#[derive(Default)]
pub struct Counts {
    pub of_files: trees::Counts,
    pub as_one: u64,
    pub not_alike: u64,
}

impl Counts {
    /// As a part of a run.
    pub fn total(&self) -> counts::Counts {
        self.of_files.total() + counts::Counts::of(self.as_one, self.not_alike)
    }

    pub fn line(&self) -> String {
        let Self { of_files, as_one, not_alike } = self;
        format!(
            "{}\n{as_one} lowered by ours as one file too, {not_alike} not alike but for words 13 and 14",
            of_files.line()
        )
    }
}

/// The description of a seed: at level 1, at level 2 or with short paths.
pub fn judged_of(seed: u64, most_queries: usize) -> Judged {
    match seed % 4 {
        0 | 1 => judged(seed, size_of_case(seed), SIGNED, most_queries),
        2 => judged(seed, size_of_case(seed), UNSIGNED, most_queries),
        _ => short_paths::judged(seed, most_queries),
    }
}

/// Compares a side on as many descriptions.
pub fn compare(side: &Library, from: u64, cases: u64, coverage: &mut Coverage) -> Counts {
    let mut counts = Counts::default();
    for seed in random::seeds(from, cases) {
        let judged = judged_of(seed, 12);
        trees::compare_judged(side, seed, &judged, &mut counts.of_files);
        note(&judged, coverage);
        counts.as_one += 1;
        if let Err(fault) = one_file(side, seed, &judged) {
            counts.not_alike += 1;
            if counts.not_alike <= 3 {
                println!("seed {seed}, as one file: {fault}");
            }
        }
    }
    counts
}

/// Lowers a description with its list and as one file: the same words and bytes, but that words 13 and 14 of one file are 0.
pub fn one_file(side: &Library, seed: u64, judged: &Judged) -> Result<(), String> {
    let Judged { case, by_01: Lowered { records, bytes, .. }, .. } = judged;
    let random = &mut Random::new(seed);
    let lent = (*records as usize * RECORD + random.below(2 * RECORD), *bytes as usize + random.below(9));
    let lowered = |records: &Records| -> Result<Room, String> {
        let mut room = Room::new(lent.0, lent.1);
        match room.lower(side.lower, records)? {
            (0, 0) => Ok(room),
            answer => Err(format!("{answer:?} with files from {:?}", records.starts)),
        }
    };
    let of_files = lowered(&case.records)?;
    let one = lowered(&Records { starts: ONE_FILE.to_vec(), ..case.records.clone() })?;
    let is_file = |word: usize| matches!(word % RECORD, 13 | 14);
    if (0..lent.0).any(|word| is_file(word) && one.words()[word] != 0) {
        return Err("one file has another number than 0".to_owned());
    }
    let same = |word: usize| is_file(word) || one.words()[word] == of_files.words()[word];
    let alike = (0..lent.0).all(same) && one.bytes() == of_files.bytes();
    if alike { Ok(()) } else { Err("other words or bytes".to_owned()) }
}
