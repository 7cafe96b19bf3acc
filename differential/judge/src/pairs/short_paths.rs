//! Short paths (02, request 5) beside a new subnode and its deletion.

use crate::{
    by_01::lower::Lowered,
    by_02::short_paths::{By, Found, Look, path_matches},
};

/// What is to come up among pairs that meet the premises.
pub const WANTED: [&str; 8] = [
    "with a path taken short before the two",
    "with a path taken short behind them",
    "with a path of more than one match, 29, before them",
    "with a path of more than one match, 29, behind them",
    "with a path taken short in a post check",
    "with a path of more than one match, 29, in a post check",
    "with a path taken short behind them that the new subnode would match too",
    "with a path not found behind them that the new subnode would match",
];

/// Which of these a run without the two has. So many paths were looked up before them.
pub fn seen(run: &Lowered, before: usize, new: &[u8]) -> Vec<&'static str> {
    let short = |look: &Look| matches!(look.found, Found::Short(_));
    let several = |look: &Look| look.found == Found::Several;
    let nothing = |look: &Look| look.found == Found::Nothing;
    let (first, behind) = run.looks.split_at(before);
    let post = |look: &&Look| look.by == By::PostCheck;
    let (checked, behind): (Vec<&Look>, Vec<&Look>) = behind.iter().partition(post);
    let matches = |look: &Look| path_matches(&look.path, new);
    let holds = [
        first.iter().any(short),
        behind.iter().any(|look| short(look)),
        first.iter().any(several),
        behind.iter().any(|look| several(look)),
        checked.iter().any(|look| short(look)),
        checked.iter().any(|look| several(look)),
        behind.iter().any(|look| short(look) && matches(look)),
        behind.iter().any(|look| nothing(look) && matches(look)),
    ];
    WANTED.into_iter().zip(holds).filter(|(_, holds)| *holds).map(|(what, _)| what).collect()
}
