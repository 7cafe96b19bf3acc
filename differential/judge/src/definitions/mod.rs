//! Small descriptions at both levels with the Rust's answers, or 02's sentences' where paths are short, as theorems: the checker
//! computes our definitions and finds them equal to the answers, or does not.

use std::{
    collections::{BTreeMap, BTreeSet},
    fmt::Write as _,
    fs,
    path::{Path, PathBuf},
};

use crate::{
    answer::{Answer, Query},
    boxes,
    by_01::{self, rows::Refusal},
    by_02::files::{faults, file_of},
    coverage::{Coverage, FULL_TEXT},
    files::spans,
    generate::{Case, Size},
    levels::{self, has_expression},
    random::Random,
    records::{RECORD, Records, SIGNED, UNSIGNED},
    small,
    tree::Rec,
    trees::{Judged, judged, judged_case},
    worked,
};

mod theorems;
use theorems::File;

/// Generated descriptions when no number is given.
pub const COUNT: usize = 150;

/// What a description may have: records beside record 0, and bytes of text.
const MOST_RECORDS: usize = 25;
const MOST_TEXT: usize = 160;
/// Seeds looked at.
const SEEDS: u64 = 60_000;
/// Paths asked for in each description: so many are tried, and so many with answers that differ are kept.
const TRIED: usize = 24;
const ASKED: usize = 5;
/// Descriptions in one file.
const IN_A_FILE: usize = 10;

/// Lists of files' starts that are taken of generated descriptions.
const LISTS: usize = 40;

/// Numbers of which some are levels.
const LEVELS: [u32; 7] = [0, SIGNED, UNSIGNED, 3, 4, 1 << 31, u32::MAX];

/// What no small description can show.
const LIMITS: [&str; 4] = ["2048 records", FULL_TEXT, "64 links", "path of 40 components"];

/// The repository's crates, each with those that it uses.
const LISTED: &str = include_str!("../../../../crates.txt");

/// The worked cases, a line each.
const WORKED: &str = include_str!("../../../../crates/worked/stdin");

/// The crates whose definitions are computed through: lowering and all that it uses, and box numbers.
fn used() -> impl Iterator<Item = &'static str> {
    let below = LISTED.lines().find_map(|line| line.strip_prefix("lowering: ")).expect("lowering is listed");
    below.split(' ').chain(["lowering", "boxes"])
}

/// A description of the sample.
struct Sample {
    about: String,
    judged: Judged,
    /// A description that rows 1 to 6 refuse, made from it, and the refusal.
    damaged: Option<(Records, Refusal)>,
}

/// Writes the crate `judged` into `folder`/crates: `count` generated descriptions beside the known small
/// ones. The definitions' names are read from the specs in `crates`.
pub fn write(folder: &str, crates: &str, count: usize, from: u64) -> Result<String, String> {
    let mut samples = samples(SIGNED, count, from)?;
    samples.extend(self::samples(UNSIGNED, count / 2, from)?);
    let missing = missing(&samples);
    if count >= COUNT && !missing.is_empty() {
        return Err(format!("not in the sample: {}", missing.join(", ")));
    }
    let home = Path::new(folder).join("crates/judged");
    for part in ["src", "specs"] {
        // An earlier sample may have had more files.
        let part = home.join(part);
        if part.exists() {
            fs::remove_dir_all(&part).map_err(|error| format!("{}: {error}", part.display()))?;
        }
        fs::create_dir_all(&part).map_err(|error| format!("{}: {error}", part.display()))?;
    }
    put(home.join("src/lib.rt"), "// Descriptions with the Rust's answers: no code, theorems in specs/.\n#![tactic(auto)]\n")?;
    put(home.join("specs/Computed.antt"), &computed(Path::new(crates))?)?;
    let files = files(&samples)?;
    let mut modules = "pub mod Computed\n".to_owned();
    for (number, file) in files.iter().enumerate() {
        let _ = writeln!(modules, "pub mod J{number:03}");
        put(home.join(format!("specs/J{number:03}.antt")), &file.out)?;
    }
    put(home.join("specs/Lib.antt"), &modules)?;
    let theorems: usize = files.iter().map(|file| file.theorems).sum();
    Ok(format!("{theorems} theorems on {} descriptions", samples.len()))
}

/// The files: of the samples, of the levels, of the lists of files' starts, of the next slash, and of box numbers.
fn files(samples: &[Sample]) -> Result<Vec<File>, String> {
    let of_part = |(number, part): (usize, &[Sample])| {
        let mut file = File::new();
        for (place, sample) in part.iter().enumerate() {
            file.sample(number * IN_A_FILE + place, sample);
        }
        file
    };
    let mut levels = File::new();
    levels.levels(&LEVELS);
    let parts = samples.chunks(IN_A_FILE).enumerate().map(of_part);
    Ok(parts.chain([levels, lists(samples)?, slashes(), boxes()]).collect())
}

/// The lists of cases/files.txt with the starts of all spans, and some of the samples' with one in each file.
fn lists(samples: &[Sample]) -> Result<File, String> {
    let mut file = File::new();
    let known = small::cases_of_files()?;
    for (number, Case { records, top, .. }) in known.iter().enumerate() {
        let places = places(&by_01::lower::lower(top, SIGNED).answer);
        let is_good = faults(&records.starts).is_empty();
        file.starts(number, &records.starts, if is_good { &places } else { &[] });
    }
    let several = samples.iter().filter(|sample| sample.judged.case.records.starts.len() > 1);
    for (number, Sample { judged, .. }) in several.take(LISTS).enumerate() {
        let starts = &judged.case.records.starts;
        let mut places = places(&judged.answer);
        places.dedup_by_key(|place| file_of(starts, *place));
        file.starts(known.len() + number, starts, &places);
    }
    Ok(file)
}

/// The worked cases of the next slash.
fn slashes() -> File {
    let mut file = File::new();
    let cases = WORKED.lines().filter_map(|line| line.strip_prefix("slash\t"));
    for (number, (text, from)) in cases.filter_map(|case| case.split_once('\t')).enumerate() {
        let from = from.parse().expect("a place");
        file.next_slash(number, &worked::unescaped(text.as_bytes()), from);
    }
    file
}

/// Box numbers: those of cases/boxes.txt, and of the worked cases.
fn boxes() -> File {
    let mut file = File::new();
    let known = boxes::known::cases().map(|(question, _)| question);
    let questions: BTreeSet<&str> = known.chain(WORKED.lines()).collect();
    for (number, case) in questions.into_iter().filter_map(boxes::Case::of_line).enumerate() {
        file.box_number(number, &case);
    }
    file
}

/// Where the spans and name spans of a log start, from the lowest on.
fn places(answer: &Answer) -> Vec<u32> {
    let places: BTreeSet<u32> = spans(answer).concat().iter().map(|span| span.0).collect();
    places.into_iter().collect()
}

fn put(file: PathBuf, text: &str) -> Result<(), String> {
    fs::write(&file, text).map_err(|error| format!("{}: {error}", file.display()))
}

/// The known small descriptions, with what they are: at level 2 those that have an expression cell.
fn known(level: u32) -> Result<Vec<(&'static str, Vec<Rec>)>, String> {
    let mut known = small::descriptions()?;
    known.extend(small::more_descriptions()?);
    if level == UNSIGNED {
        known.extend(small::level_2_descriptions()?);
        known.retain(|top| has_expression(top));
        return Ok(known.into_iter().map(|top| ("known", top)).collect());
    }
    let short = small::short_path_descriptions()?.into_iter().map(|top| ("short path", top));
    Ok(known.into_iter().map(|top| ("known", top)).chain(short).collect())
}

/// The known small descriptions, then generated ones that differ: each shows something that few before it
/// did.
fn samples(level: u32, count: usize, from: u64) -> Result<Vec<Sample>, String> {
    let mut random = Random::new(from);
    let mut seen: BTreeMap<String, usize> = BTreeMap::new();
    let mut samples = Vec::new();
    for (about, top) in known(level)? {
        let (sample, features) = noted(about.to_owned(), judged_case(Case::known(top, level), TRIED));
        for feature in features {
            *seen.entry(feature).or_default() += 1;
        }
        samples.push(sample);
    }
    let mut pool: Vec<(Sample, Vec<String>)> = (from..from + SEEDS)
        .map(|seed| (seed, judged(seed, Size::Small, level, TRIED)))
        .filter(|(_, judged)| is_small(&judged.case.records))
        .filter(|(_, judged)| level == SIGNED || has_expression(&judged.case.top))
        .map(|(seed, judged)| noted(format!("seed {seed}"), judged))
        .collect();
    // In each round a feature may have been shown once more; what was known before counts as one time.
    seen.values_mut().for_each(|times| *times = 1);
    let wanted = samples.len() + count;
    for round in 1.. {
        if samples.len() >= wanted || pool.is_empty() {
            break;
        }
        for (sample, features) in std::mem::take(&mut pool) {
            let is_new = |feature: &String| seen.get(feature).is_none_or(|times| *times < round);
            if samples.len() < wanted && features.iter().any(is_new) {
                for feature in features {
                    *seen.entry(feature).or_default() += 1;
                }
                samples.push(sample);
            } else {
                pool.push((sample, features));
            }
        }
    }
    let mut rows = [0; 7];
    // Which descriptions are refused does not depend on the level.
    for sample in samples.iter_mut().filter(|_| level == SIGNED) {
        sample.damaged = damaged(&sample.judged.case.records, &mut rows, &mut random);
    }
    Ok(samples)
}

fn is_small(records: &Records) -> bool {
    records.words.len() / RECORD - 1 <= MOST_RECORDS && records.text.len() <= MOST_TEXT
}

/// A description with what it shows.
fn noted(about: String, judged: Judged) -> (Sample, Vec<String>) {
    let mut coverage = Coverage::empty();
    note(&judged, &mut coverage);
    let features = coverage.features().cloned().collect();
    (Sample { about, judged, damaged: None }, features)
}

/// Notes what a description shows, by the list of its level.
fn note(judged: &Judged, coverage: &mut Coverage) {
    match judged.case.records.level {
        UNSIGNED => levels::note(judged, coverage),
        _ => coverage.note(judged),
    }
}

/// What is to come up at a level and does not.
fn missing(samples: &[Sample]) -> Vec<String> {
    let mut missing = Vec::new();
    for (level, mut coverage) in [(SIGNED, Coverage::of_descriptions()), (UNSIGNED, levels::wanted())] {
        for sample in samples.iter().filter(|sample| sample.judged.case.records.level == level) {
            note(&sample.judged, &mut coverage);
        }
        let never = coverage.report().1.into_iter().filter(|feature| !LIMITS.contains(feature));
        missing.extend(never.map(|feature| format!("{feature} at level {level}")));
    }
    missing
}

/// The description with one word another, or one too few, so that rows 1 to 6 refuse it; by the number that
/// was least often given before.
fn damaged(records: &Records, rows: &mut [usize; 7], random: &mut Random) -> Option<(Records, Refusal)> {
    let mut found: Option<(Records, Refusal)> = None;
    for _ in 0..60 {
        let mut other = records.clone();
        let at = random.below(other.words.len());
        match random.below(8) {
            0 => drop(other.words.pop()),
            1 => other.words[at] = random.below(30) as u32,
            2 => other.words[at] = 0,
            3 => other.words[at] = u32::MAX,
            _ => other.words[at] = other.words[at].wrapping_add(random.pick(&[1, 2, u32::MAX])),
        }
        let rarer = |number: u32| {
            found.as_ref().is_none_or(|(_, (before, _))| rows[number as usize] < rows[*before as usize])
        };
        if let Some(refusal) = by_01::rows::refusal(&other)
            && rarer(refusal.0)
        {
            found = Some((other, refusal));
        }
    }
    if let Some((_, (number, _))) = &found {
        rows[*number as usize] += 1;
    }
    found
}

/// The paths asked for, each with answers that none before it has.
fn asked(queries: &[Query]) -> Vec<&Query> {
    let mut kept: Vec<&Query> = Vec::new();
    for query in queries {
        let same = |other: &&Query| {
            (&other.live, &other.history, other.contains) == (&query.live, &query.history, query.contains)
        };
        if kept.len() < ASKED && !kept.iter().any(same) {
            kept.push(query);
        }
    }
    kept
}

/// The file with one name for all that the theorems compute through: every definition of the crates that is
/// computed only where it is named.
fn computed(crates: &Path) -> Result<String, String> {
    let mut names = Vec::new();
    for used in used() {
        let specs = crates.join(used).join("specs/meaning");
        // A crate without definitions of its own has steps of the code alone.
        if !specs.exists() {
            continue;
        }
        let fault = |error: std::io::Error| format!("{}: {error}", specs.display());
        let mut files = Vec::new();
        for entry in fs::read_dir(&specs).map_err(fault)? {
            files.push(entry.map_err(fault)?.path());
        }
        files.sort();
        for file in files.iter().filter(|file| file.extension().is_some_and(|ending| ending == "antt")) {
            let module = file.file_stem().unwrap_or_default().to_string_lossy();
            let text = fs::read_to_string(file).map_err(fault)?;
            names.extend(
                unfoldable(&text).iter().map(|name| format!("Rattle.{used}.specs.meaning.{module}.{name}")),
            );
        }
    }
    Ok(format!(
        "{COMPUTED}unfolding {}\ncomputed level words text = meaning level words text\n",
        names.join(" ")
    ))
}

/// The names of a file's definitions that are computed only where they are named.
fn unfoldable(text: &str) -> Vec<String> {
    let mut names = Vec::new();
    // How far the mutual definitions at hand are moved in; a module moves all in that it has.
    let mut mutual = None;
    for line in text.lines().filter(|line| !line.is_empty()) {
        let start = line.trim_start();
        let moved = line.len() - start.len();
        mutual = mutual.filter(|outer| moved > *outer);
        let begins = if mutual.is_some_and(|outer| moved == outer + 2) { "pub " } else { "unfoldable pub " };
        names.extend(start.strip_prefix(begins).and_then(|rest| rest.split(' ').next()).map(str::to_owned));
        if start == "unfoldable mutual" {
            mutual = Some(moved);
        }
    }
    names
}

const COMPUTED: &str =
    "-- What the theorems share: short names, and one name for all that they compute through.
use Rattle.std.specs.Prelude.{ℕ, List}
use Rattle.definition_log.specs.meaning.Contents.{Span, DefValue, Def, Ext, Binding, Diag}
use Rattle.making.specs.meaning.State.{State}
use Rattle.lowering.specs.meaning.Lowered.{meaning}
use Rattle.paths_numbers.specs.meaning.Reference.{Target}

abbrev pub span : ℕ → ℕ → Span
span a b = record { from = a; to = b }

abbrev pub definition : List ℕ → DefValue → Span → Span → Def
definition p v s n = record { path = p; value = v; span = s; name_span = n }

abbrev pub extension : Target → List Def → Span → Span → Ext
extension t b s n = record { target = t; body = b; span = s; name_span = n }

abbrev pub binding : List ℕ → List ℕ → Span → Binding
binding l p s = record { label = l; path = p; span = s }

abbrev pub diagnostic : ℕ → List ℕ → Span → Span → Diag
diagnostic c t s n = record { code = c; text = t; span = s; name_span = n }

-- all that is computed through
unfoldable pub computed : ℕ → List ℕ → List ℕ → State
";
