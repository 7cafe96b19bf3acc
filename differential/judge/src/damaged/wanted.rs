//! What is to come up among damaged descriptions.

use super::{NO_LEVELS, damage::DAMAGES, lists};
use crate::{
    by_01::{
        lower::Lowered,
        rows::{Clause, Link, NO_LEVEL, Refused},
    },
    by_02::short_paths::Found,
    coverage::Coverage,
    records::UNSIGNED,
    tree::Place,
};

/// What is to come up: each change alone with its row, each clause as the one returned, each row before
/// a later one, 18 before each row and each change, each answer at level 2, short paths, bad lists, and each sort of room.
pub fn wanted() -> Coverage {
    let mut levels: Vec<String> = (1..=6).map(before_row).collect();
    levels.extend(DAMAGES.iter().map(|damage| before_change(damage.name)));
    levels.extend(NO_LEVELS.map(no_level));
    levels.extend([NO_CHANGE, OTHER_LEVEL].map(str::to_owned));
    levels.extend((0..=7).map(at_level_2));
    levels.extend(SHORT.map(str::to_owned));
    levels.extend(lists::wanted());
    let alone = DAMAGES.iter().map(|damage| alone(damage.name, damage.row));
    let clauses = clauses().into_iter().map(returned_for);
    let rows = (2..=5).flat_map(|row| (row + 1..=6).map(move |later| before(row, later)));
    Coverage::wanting(alone.chain(clauses).chain(rows).chain(levels).chain(ROOMS.map(str::to_owned)))
}

const ROOMS: [&str; 16] = [
    "refused with no words and no bytes lent",
    "refused with words that are no multiple of 16",
    "refused with more than 65,536 records lent",
    "refused with more than 2^24 bytes lent",
    "lowered into just enough",
    "lowered with room to spare",
    "lowered into words that are no multiple of 16",
    "lowered with no bytes lent",
    "lowered with more than 65,536 records lent",
    "lowered with more than 2^24 bytes lent",
    "7 for records, one short",
    "7 for bytes, one short",
    "7 for both",
    "7 for no words lent",
    "7 for fewer words than a record has",
    "7 for no bytes lent",
];

fn clauses() -> Vec<Clause> {
    let links = [Link::Next, Link::Child, Link::Items, Link::Values];
    let mut all =
        vec![Clause::Level, Clause::NoWords, Clause::WordsNotEight, Clause::RecordsOver, Clause::TextOver];
    all.extend(
        links
            .into_iter()
            .flat_map(|link| [Clause::NotAbove(link), Clause::PastEnd(link), Clause::LinkedAlready(link)]),
    );
    all.push(Clause::TextPastEnd);
    all.extend([0, 1, 3, 4, 5, 6, 7].map(Clause::Record0));
    all.extend(Place::ALL.map(Clause::KindUnfit));
    all.extend((3..=15).chain(17..=20).map(Clause::W));
    all.extend([Clause::Surrogate, Clause::AboveLastPoint, Clause::SpanTurned]);
    all.extend([4, 5, 9, 10, 11, 12, 14, 15, 16].map(Clause::Child));
    all.extend([Clause::NameEmpty, Clause::NameSlash, Clause::ReferenceSlash]);
    all.extend([Link::Child, Link::Items, Link::Values].map(Clause::Links));
    all.extend(lists::clauses());
    all
}

fn alone(damage: &str, row: u32) -> String {
    if row == 0 { format!("{damage}, alone: accepted") } else { format!("{damage}, alone: row {row}") }
}

pub fn returned_for(clause: Clause) -> String {
    format!("returned for {clause:?} alone")
}

/// A row that refuses where a change of a later row was made too.
fn before(row: u32, later: u32) -> String {
    format!("row {row} before row {later}")
}

const NO_CHANGE: &str = "18 of a description without a change";
const OTHER_LEVEL: &str = "18 for another level";

fn before_row(row: u32) -> String {
    format!("18 before row {row}")
}

fn before_change(damage: &str) -> String {
    format!("18 before {damage}")
}

fn no_level(level: u32) -> String {
    format!("18 for level {level}")
}

/// A description at level 2 that a row refuses, or that none of 1 to 6 does.
pub fn at_level_2(row: u32) -> String {
    if row == 0 { "level 2: accepted by rows 1 to 6".to_owned() } else { format!("level 2: row {row}") }
}

/// What is to come up among short paths of descriptions that are accepted.
const SHORT: [&str; 2] = ["accepted with a path taken short", "accepted with 29"];

/// Notes the short paths of a description that is accepted.
pub fn note_short(lowered: &Lowered, coverage: &mut Coverage) {
    let has = |is: fn(&Found) -> bool| lowered.looks.iter().any(|look| is(&look.found));
    let holds = [has(|found| matches!(found, Found::Short(_))), has(|found| *found == Found::Several)];
    for (what, holds) in SHORT.into_iter().zip(holds) {
        coverage.add_if(what.to_owned(), holds);
    }
}

/// Notes of a description that is refused for its level what else would have refused it.
fn note_level(damages: &[usize], level: u32, coverage: &mut Coverage) {
    let known = NO_LEVELS.contains(&level);
    coverage.add(if known { no_level(level) } else { OTHER_LEVEL.to_owned() }, 1);
    coverage.add_if(NO_CHANGE.to_owned(), damages.is_empty());
    for damage in damages.iter().map(|damage| &DAMAGES[*damage]) {
        coverage.add(before_change(damage.name), 1);
        coverage.add_if(before_row(damage.row), damage.row > 0);
    }
}

/// Notes which changes were made, and by what the description is refused.
pub fn note(damages: &[usize], level: u32, refused: Option<&Refused>, coverage: &mut Coverage) {
    let row = refused.map_or(0, |refused| refused.number);
    coverage.add_if(at_level_2(row), level == UNSIGNED);
    if row == NO_LEVEL {
        note_level(damages, level, coverage);
    } else if let [damage] = damages {
        coverage.add(alone(DAMAGES[*damage].name, row), 1);
    }
    if let Some(Refused { clauses, .. }) = refused
        && let [clause] = clauses[..]
    {
        coverage.add(returned_for(clause), 1);
    }
    let rows = damages.iter().map(|damage| DAMAGES[*damage].row);
    for later in rows.filter(|later| (2..NO_LEVEL).contains(&row) && *later > row) {
        coverage.add(before(row, later), 1);
    }
}
