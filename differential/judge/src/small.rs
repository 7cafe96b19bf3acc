//! Small descriptions with lines of the answer, from cases/small.txt, cases/level_2.txt, cases/short_paths.txt and
//! cases/files.txt.

use crate::{
    by_01::{self, lower::Lowered, rows::Refusal},
    by_02::files::Files,
    counts::Counts,
    generate::Case,
    library::Library,
    notation,
    output::RECORD,
    records::{ONE_FILE, SIGNED, UNSIGNED},
    room::Room,
    short_paths::in_full,
    text_form::with_files,
    tree::Rec,
    trees::{self, Judged},
};

const CASES: &str = include_str!("../../cases/small.txt");
const LEVEL_2: &str = include_str!("../../cases/level_2.txt");
const SHORT_PATHS: &str = include_str!("../../cases/short_paths.txt");
const FILES: &str = include_str!("../../cases/files.txt");
const MORE: &str = include_str!("../../cases/definitions.txt");

/// The lines of a file, without those that say something about it.
fn lines(file: &'static str) -> impl Iterator<Item = &'static str> {
    file.lines().filter(|line| !line.is_empty() && !line.starts_with('#'))
}

/// A description at a level with the files' starts, and lines that its answer has.
struct Known {
    about: &'static str,
    description: &'static str,
    level: u32,
    starts: Vec<u32>,
    wanted: &'static str,
}

impl Known {
    /// Those of a line: what it shows, the description, and the lines at each of these levels; those at the
    /// last level may be left out.
    fn of_line(line: &'static str, levels: &[u32]) -> Vec<Self> {
        let fields: Vec<&str> = line.split(" | ").collect();
        let [about, description, ref wanted @ ..] = fields[..] else {
            panic!("a description is due in: {line}")
        };
        assert!((1..=levels.len()).contains(&wanted.len()), "other fields are due in: {line}");
        levels
            .iter()
            .zip(wanted)
            .map(|(level, wanted)| {
                let starts = ONE_FILE.to_vec();
                Self { about, description, level: *level, starts, wanted }
            })
            .collect()
    }

    /// Those of a line that has the starts before the description, at both levels.
    fn of_files(line: &'static str) -> Vec<Self> {
        let fields: Vec<&str> = line.split(" | ").collect();
        let [about, starts, description, wanted] = fields[..] else {
            panic!("starts, a description and lines are due in: {line}")
        };
        let start = |text: &str| text.parse().unwrap_or_else(|_| panic!("a start is due in: {line}"));
        let starts: Vec<u32> = starts.split_whitespace().filter(|text| *text != "-").map(start).collect();
        let at = |level| Self { about, description, level, starts: starts.clone(), wanted };
        [SIGNED, UNSIGNED].map(at).into()
    }
}

/// All of the four files. Short paths and files have no level, and are told at both.
fn known() -> impl Iterator<Item = Known> {
    let at_level_1 = lines(CASES).flat_map(|line| Known::of_line(line, &[SIGNED]));
    let short_paths = lines(SHORT_PATHS).flat_map(|line| {
        [SIGNED, UNSIGNED].into_iter().flat_map(move |level| Known::of_line(line, &[level]))
    });
    let level_2 = lines(LEVEL_2).flat_map(|line| Known::of_line(line, &[UNSIGNED, SIGNED]));
    at_level_1.chain(level_2).chain(short_paths).chain(lines(FILES).flat_map(Known::of_files))
}

/// The descriptions of cases/small.txt.
pub fn descriptions() -> Result<Vec<Vec<Rec>>, String> {
    all_of(CASES)
}

/// The descriptions of cases/level_2.txt.
pub fn level_2_descriptions() -> Result<Vec<Vec<Rec>>, String> {
    all_of(LEVEL_2)
}

/// The descriptions of cases/short_paths.txt.
pub fn short_path_descriptions() -> Result<Vec<Vec<Rec>>, String> {
    all_of(SHORT_PATHS)
}

/// The descriptions of cases/files.txt at level 1 with their lists, good ones and bad.
pub fn cases_of_files() -> Result<Vec<Case>, String> {
    let known = lines(FILES).flat_map(|line| Known::of_files(line).into_iter().take(1));
    let case = |known: Known| {
        let top = notation::read(known.description)?;
        Ok(Case::known(top, known.level).of_files(&known.starts))
    };
    known.map(case).collect()
}

/// The descriptions of cases/definitions.txt, which have no lines of their own.
pub fn more_descriptions() -> Result<Vec<Vec<Rec>>, String> {
    all_of(MORE)
}

/// The descriptions of a file: each stands behind what it shows.
fn all_of(file: &'static str) -> Result<Vec<Vec<Rec>>, String> {
    lines(file).map(|line| notation::read(line.split(" | ").nth(1).unwrap_or(line))).collect()
}

/// Compares what is due, the Rust's or 02's sentences', with the lines, with 01's sentences, and with a side.
pub fn compare(side: &Library) -> Result<Counts, String> {
    let mut counts = Counts::default();
    for Known { about, description, level, starts, wanted } in known() {
        let top = notation::read(description).map_err(|fault| format!("{about}: {fault}"))?;
        let judged = trees::judged_case(Case::known(top, level).of_files(&starts), 40);
        let faults = match by_01::rows::refusal(&judged.case.records) {
            Some(refusal) => refused(side, &judged, refusal, wanted).err().into_iter().collect(),
            None => lowered(side, &judged, wanted),
        };
        counts.compared += 1;
        counts.aside += if judged.is_aside() { 1 } else { trees::by_rule(&judged.answer) };
        if !faults.is_empty() {
            counts.different += 1;
            println!("{about}, level {level}: {}", faults.join("; "));
        }
    }
    Ok(counts)
}

/// What is wrong with the answer to a description; behind it the answer.
fn lowered(side: &Library, judged: &Judged, wanted: &str) -> Vec<String> {
    let Judged { case, answer, queries, .. } = judged;
    let due = with_files(answer, queries, &Files::of(answer, &case.records.starts));
    let lines = wanted.split(';').map(str::trim).filter(|line| !holds(&due, line));
    let mut faults: Vec<String> = lines.map(|line| format!("not so: {line}")).collect();
    let by_01 = trees::difference(judged);
    faults.extend(by_01.iter().map(|(by_01, rust)| format!("01 {by_01}, Rust {rust}")));
    if judged.is_aside() {
        let in_full = in_full::difference(judged);
        faults.extend(in_full.map(|part| format!("the Rust in full: {part} differ")));
    }
    faults.extend(trees::fault_of(side, &case.top, &case.records));
    if let Some(last) = faults.last_mut() {
        *last += &format!("\n{due}");
    }
    faults
}

/// A description that is refused has one line, as 01's listing; ours must leave buffers that have just enough room.
fn refused(side: &Library, judged: &Judged, refusal: Refusal, wanted: &str) -> Result<(), String> {
    let line = format!("R {} {}", refusal.0, refusal.1);
    if line != wanted {
        return Err(format!("not so: {wanted}; {line}"));
    }
    let Lowered { records, bytes, .. } = judged.by_01;
    let mut room = Room::new(records as usize * RECORD, bytes as usize);
    let answer = room.lower(side.lower, &judged.case.records)?;
    if answer == refusal && room.is_left() { Ok(()) } else { Err(format!("{answer:?}, due {refusal:?}")) }
}

/// Whether a line of a case holds of the text form.
fn holds(form: &str, line: &str) -> bool {
    let count = |begins: &str| form.lines().filter(|line| line.starts_with(begins)).count();
    if let Some(begins) = line.strip_prefix('!') {
        return count(begins) == 0;
    }
    match line.split_once("* ").map(|(times, begins)| (times.parse::<usize>(), begins)) {
        Some((Ok(times), begins)) => count(begins) == times,
        _ => count(line) > 0,
    }
}
