//! The Rust judge: docs/src compiled unchanged, and what it answers. README.md says how to run it.

use std::{env, fs, io::Write, process::ExitCode};

use judge::{
    by_01,
    by_02::{self, files::Files},
    counts::Counts,
    definitions, dtc, files,
    generate::{self, Case},
    levels,
    library::Library,
    listing_input, logs, memory, notation, ours, panics,
    parts::{self, ALL, SHORT, Sizes},
    recorded,
    records::{self, ONE_FILE, RECORD, Records, SIGNED, UNSIGNED},
    short_paths, slashes, speed, text_form,
    trees::{self, Judged},
    worked,
};

/// Where the recorded sample is.
const RECORDED: &str = concat!(env!("CARGO_MANIFEST_DIR"), "/../../crates/replay/data");

/// Where the repository's crates are, unless OURS_CRATES names another folder.
const CRATES: &str = concat!(env!("CARGO_MANIFEST_DIR"), "/../../crates");

const USAGE: &str = "usage: run [all [CASES]] | short | worked FILE | numbers | boxes | small
       | trees FROM CASES | levels [FROM CASES] | short-paths [FROM CASES] | files [FROM CASES]
       | damaged [FROM CASES] | pairs [FROM CASES] | queries [FROM LOGS] | planted | speed
       | ask [LEVEL [STARTS]] DESCRIPTION | show SEED | input SEED | write FILE | judge FILE | listing FILE
       | dtc [CASES] | record FOLDER | definitions FOLDER [COUNT] [SEED]";

fn main() -> ExitCode {
    panics::install_hook();
    let words: Vec<String> = env::args().skip(1).collect();
    let words: Vec<&str> = words.iter().map(String::as_str).collect();
    match command(&words) {
        Ok(()) => ExitCode::SUCCESS,
        Err(message) => {
            eprintln!("{message}");
            ExitCode::FAILURE
        }
    }
}

/// What the words ask for.
fn command(words: &[&str]) -> Result<(), String> {
    match *words {
        [] | ["all"] => all(ALL.descriptions),
        ["all", cases] => number(cases).and_then(all),
        ["short"] => short(),
        ["worked", file] => worked::run(file),
        ["numbers"] => parts::numbers(&ours::leaves()?)?.closing(),
        ["boxes"] => parts::boxes(&ours::boxes()?)?.closing(),
        ["small"] => parts::small(&ours::library()?)?.closing(),
        ["trees", from, cases] => part(parts::descriptions, number(from)?, number(cases)?),
        ["levels"] => part(parts::levels, 0, ALL.levels),
        ["levels", from, cases] => part(parts::levels, number(from)?, number(cases)?),
        ["short-paths"] => part(parts::short_paths, 0, ALL.short_paths),
        ["short-paths", from, cases] => part(parts::short_paths, number(from)?, number(cases)?),
        ["files"] => part(parts::files, files::FROM, ALL.files),
        ["files", from, cases] => part(parts::files, number(from)?, number(cases)?),
        ["damaged"] => part(parts::damaged, 0, ALL.damaged),
        ["damaged", from, cases] => part(parts::damaged, number(from)?, number(cases)?),
        ["pairs"] => part(parts::pairs, 0, ALL.pairs),
        ["pairs", from, cases] => part(parts::pairs, number(from)?, number(cases)?),
        ["queries"] => part(parts::queries, 0, ALL.logs),
        ["queries", from, logs] => part(parts::queries, number(from)?, number(logs)?),
        ["memory", program] => memory::run(program, None),
        ["memory", program, cases] => memory::run(program, Some(number(cases)?)),
        ["speed"] => speed_part(),
        ["planted"] => ours::leaves().and(ours::library()).and_then(|_| parts::planted()),
        ["ask", description] => ask("1", "0", description),
        ["ask", level, description] => ask(level, "0", description),
        ["ask", level, starts, description] => ask(level, starts, description),
        ["show", seed] => show(seed),
        ["input", seed] => input(seed),
        ["write", file] => write(file),
        ["judge", file] => judged_file(file)
            .map(|judged| print!("{}", text_form::text_form(&judged.answer, &judged.queries))),
        ["listing", file] => {
            judged_file(file).and_then(|judged| print_bytes(&text_form::listing(&judged.answer)))
        }
        ["dtc"] => dtc::run(dtc::CASES),
        ["dtc", cases] => dtc::run(number(cases)?),
        ["record", folder] => recorded::write(folder).map(|line| println!("{line}")),
        ["definitions", folder, ref more @ ..] if more.len() <= 2 => definitions_part(folder, more),
        _ => Err(USAGE.to_owned()),
    }
}

fn number(text: &str) -> Result<u64, String> {
    text.parse().map_err(|_| format!("{text} is not a number"))
}

fn print_bytes(bytes: &[u8]) -> Result<(), String> {
    std::io::stdout().write_all(bytes).map_err(|error| error.to_string())
}

/// One part of lowering or queries alone, from a seed on, with the closing line.
fn part(part: fn(&Library, u64, u64) -> Result<Counts, String>, from: u64, cases: u64) -> Result<(), String> {
    part(&ours::library()?, from, cases)?.closing()
}

/// What every run of several parts has, with the sizes of some of them.
fn parts_of(sizes: &Sizes) -> Result<Counts, String> {
    let (leaves, ours) = (ours::leaves()?, ours::library()?);
    let parts = [
        parts::numbers(&leaves)?,
        parts::boxes(&ours::boxes()?)?,
        parts::small(&ours)?,
        parts::descriptions(&ours, 0, sizes.descriptions)?,
        parts::levels(&ours, 0, sizes.levels)?,
        parts::short_paths(&ours, 0, sizes.short_paths)?,
        parts::files(&ours, files::FROM, sizes.files)?,
        parts::damaged(&ours, 0, sizes.damaged)?,
        parts::pairs(&ours, 0, sizes.pairs)?,
        parts::queries(&ours, 0, sizes.logs)?,
    ];
    println!("{}", recorded::check(RECORDED)?);
    Ok(parts.into_iter().sum())
}

/// All parts, and the closing line.
fn all(descriptions: u64) -> Result<(), String> {
    let counts = parts_of(&Sizes { descriptions, ..ALL })? + parts::sentences();
    parts::planted()?;
    counts.closing()
}

/// Less of each part, and the closing line.
fn short() -> Result<(), String> {
    parts_of(&SHORT)?.closing()
}

/// The tables of queries, of lowering and of slashes.
fn speed_part() -> Result<(), String> {
    let (leaves, ours) = (ours::leaves()?, ours::library()?);
    logs::speed::run(&ours.queries)?;
    speed::run(&ours)?;
    levels::speed::run(&ours)?;
    short_paths::speed::run(&ours)?;
    files::speed::run(&ours)?;
    slashes::speed::run(&leaves)
}

/// Theorems on small descriptions, for the checker.
fn definitions_part(folder: &str, more: &[&str]) -> Result<(), String> {
    let crates = env::var("OURS_CRATES").unwrap_or_else(|_| CRATES.to_owned());
    let count = more.first().map_or(Ok(definitions::COUNT as u64), |count| number(count))?;
    let from = more.get(1).map_or(Ok(0), |seed| number(seed))?;
    println!("{}", definitions::write(folder, &crates, count as usize, from)?);
    Ok(())
}

/// The text form of a description in the short notation at a level, its files starting there, and where 01's sentences differ.
fn ask(level: &str, starts: &str, description: &str) -> Result<(), String> {
    let level = number(level)? as u32;
    if ![SIGNED, UNSIGNED].contains(&level) {
        return Err(format!("{level} is no level"));
    }
    let starts: Vec<u32> = starts.split_whitespace().map(start).collect::<Result<_, _>>()?;
    if !by_02::files::faults(&starts).is_empty() {
        return Err(format!("{starts:?} is no list of files' starts"));
    }
    let case = Case::known(notation::read(description)?, level).of_files(&starts);
    print_judged(&trees::judged_case(case, 40));
    Ok(())
}

fn start(text: &str) -> Result<u32, String> {
    text.parse().map_err(|_| format!("{text} is no start"))
}

/// The text form of what is due, with files where there are several, and where 01's sentences differ.
fn print_judged(judged: &Judged) {
    if judged.is_aside() {
        println!("set aside for a short path: by 01's and 02's sentences");
    }
    let (Judged { answer, queries, .. }, starts) = (judged, &judged.case.records.starts);
    if starts.len() > 1 {
        println!("files from {starts:?}");
        print!("{}", text_form::with_files(answer, queries, &Files::of(answer, starts)));
    } else {
        print!("{}", text_form::text_form(answer, queries));
    }
    for (by_01, rust) in trees::difference(judged) {
        println!("different: 01 {by_01}, Rust {rust}");
    }
}

/// A generated description in the short notation, and its text form.
fn show(seed: &str) -> Result<(), String> {
    let seed = number(seed)?;
    let judged = trees::judged(seed, trees::size_of_case(seed), SIGNED, 40);
    println!("{}", notation::written(&judged.case.top));
    print_judged(&judged);
    Ok(())
}

/// A generated description as the listing program's input.
fn input(seed: &str) -> Result<(), String> {
    let seed = number(seed)?;
    let records = generate::generate(seed, trees::size_of_case(seed), SIGNED).records;
    print_bytes(&listing_input::bytes((records.words.len() / RECORD) as u32, &records))
}

/// A description in a file as the listing program's input.
fn write(file: &str) -> Result<(), String> {
    let text = fs::read_to_string(file).map_err(|error| format!("{file}: {error}"))?;
    print_bytes(&listing_input::of_text(&text).map_err(|error| format!("{file}: {error}"))?)
}

/// The answer that is due to the listing program's input, which rows 1 to 6 must accept.
fn judged_file(file: &str) -> Result<Judged, String> {
    let bytes = fs::read(file).map_err(|error| format!("{file}: {error}"))?;
    let short = || format!("{file} is cut short");
    let (count, rest) = bytes.split_first_chunk::<4>().ok_or_else(short)?;
    let (words, text) =
        rest.split_at_checked(u32::from_le_bytes(*count) as usize * RECORD * 4).ok_or_else(short)?;
    let words = words.as_chunks::<4>().0.iter().map(|word| u32::from_le_bytes(*word)).collect();
    let records = Records { words, text: text.to_vec(), level: SIGNED, starts: ONE_FILE.to_vec() };
    if let Some((number, returned)) = by_01::rows::refusal(&records) {
        return Err(format!("{file} is refused: R {number} {returned}"));
    }
    let top = records::read(&records);
    Ok(trees::judged_tree(&top, SIGNED, 40))
}
