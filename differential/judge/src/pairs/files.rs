//! Files (02, request 3) beside a new subnode and its deletion.

use crate::{
    answer::Answer,
    by_02::files::{Files, Pair},
};

/// What is to come up among pairs that meet the premises.
pub const WANTED: [&str; 9] = [
    "of more than one file",
    "of 16 files",
    "with different files before the two",
    "with different files behind them",
    "with words 13 and 14 different before them",
    "with words 13 and 14 different behind them",
    "with the two in a file other than 0",
    "with bindings of different files",
    "with diagnostics of different files",
];

/// Which of these a pair has: both runs' logs, how many definitions come before the two, and how many they make.
pub fn seen(a: &Answer, b: &Answer, before: usize, starts: &[u32]) -> Vec<&'static str> {
    let (of_a, of_b) = (Files::of(a, starts), Files::of(b, starts));
    let made = of_b.definitions.len() - of_a.definitions.len();
    let (first, behind) = of_a.definitions.split_at(before);
    let several = |files: &[Pair]| files.iter().any(|pair| pair[0] != files[0][0]);
    let parted = |files: &[Pair]| files.iter().any(|pair| pair[0] != pair[1]);
    let holds = [
        starts.len() > 1,
        starts.len() == 16,
        several(first),
        several(behind),
        parted(first),
        parted(behind),
        of_b.definitions[before..before + made].iter().any(|pair| pair[0] != 0),
        several(&of_a.bindings),
        several(&of_a.lowering) || several(&of_a.post),
    ];
    WANTED.into_iter().zip(holds).filter(|(_, holds)| *holds).map(|(what, _)| what).collect()
}
