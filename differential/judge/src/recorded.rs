//! The recorded sample: descriptions with the Rust's answers, and with 02's sentences' where paths are short, for a program
//! that replays them without the Rust. crates/replay/README.md describes the form.

use std::{collections::BTreeSet, fs, path::Path};

use crate::{
    answer::{Cell, Definition, Diagnosis, Target, Value},
    by_01::{self, lower::Lowered},
    coverage::{Coverage, FULL_TEXT},
    generate::{Case, Size},
    records::{MOST_TEXT, RECORD, SIGNED},
    small,
    tree::Span,
    trees::{Judged, judged, judged_case},
};

/// Generated cases recorded, by size, with the seeds tried and the most records a case may have.
const GENERATED: [(Size, usize, u64, usize); 3] =
    [(Size::Small, 420, 20_000, 64), (Size::Middle, 60, 4_000, 160), (Size::Limit, 3, 300, 2048)];
/// Queries recorded for each case, at most.
const QUERIES: usize = 16;
/// What crates/replay reads of a sample, in bytes.
const READ: usize = 524_288;

/// The sample and its coverage report.
fn made() -> Result<(Vec<u8>, String, usize), String> {
    let known = small::descriptions()?.into_iter().chain(small::short_path_descriptions()?);
    let mut cases: Vec<Judged> = known.map(|top| judged_case(Case::known(top, SIGNED), QUERIES)).collect();
    let mut seen = BTreeSet::new();
    for (size, wanted, seeds, most) in GENERATED {
        cases.extend(chosen(&mut seen, size, wanted, seeds, most));
    }
    let mut out = Out::default();
    out.number(cases.len() as u32);
    let mut coverage = Coverage::of_descriptions();
    for judged in &cases {
        assert_eq!(by_01::rows::refusal(&judged.case.records), None, "a recorded description is refused");
        coverage.note(judged);
        out.case(judged, &judged.by_01);
    }
    let (report, missing) = coverage.report();
    if !missing.is_empty() {
        return Err(format!("not in the sample: {}", missing.join(", ")));
    }
    if out.0.len() > READ {
        return Err(format!("the sample has {} bytes, and {READ} are read", out.0.len()));
    }
    Ok((out.0, report, cases.len()))
}

/// Writes the sample into a folder.
pub fn write(folder: &str) -> Result<String, String> {
    let (bytes, report, cases) = made()?;
    let write = |name: &str, bytes: &[u8]| {
        fs::write(Path::new(folder).join(name), bytes).map_err(|error| format!("{folder}/{name}: {error}"))
    };
    fs::create_dir_all(folder).map_err(|error| format!("{folder}: {error}"))?;
    write("answers.bin", &bytes)?;
    write("coverage.txt", report.as_bytes())?;
    Ok(format!("{cases} cases recorded in {} bytes", bytes.len()))
}

/// Whether the sample in a folder is what would be written now.
pub fn check(folder: &str) -> Result<String, String> {
    let recorded =
        fs::read(Path::new(folder).join("answers.bin")).map_err(|error| format!("{folder}: {error}"))?;
    let (bytes, _, cases) = made()?;
    if recorded == bytes {
        Ok(format!("the recorded sample: {cases} cases, as made"))
    } else {
        Err("the recorded sample is not what the Rust answers now".to_owned())
    }
}

/// Cases that show something no case before them did, then others up to `wanted`. One has a full text.
fn chosen(seen: &mut BTreeSet<String>, size: Size, wanted: usize, seeds: u64, most: usize) -> Vec<Judged> {
    let mut new = Vec::new();
    let mut others = Vec::new();
    for seed in 0..seeds {
        let judged = judged(seed, size, SIGNED, QUERIES);
        let mut coverage = Coverage::empty();
        coverage.note(&judged);
        let before = seen.len();
        let again = judged.case.records.text.len() == MOST_TEXT && seen.contains(FULL_TEXT);
        if judged.case.records.words.len() / RECORD <= most && !again && !judged.is_aside() {
            seen.extend(coverage.features().cloned());
            if seen.len() > before {
                new.push(judged);
            } else if others.len() < wanted {
                others.push(judged);
            }
        }
    }
    new.into_iter().chain(others).take(wanted).collect()
}

/// Numbers and texts one behind the other.
#[derive(Default)]
struct Out(Vec<u8>);

impl Out {
    /// One byte below 255, or 255 and four bytes, low byte first.
    fn number(&mut self, number: u32) {
        match u8::try_from(number) {
            Ok(byte) if byte < 255 => self.0.push(byte),
            _ => {
                self.0.push(255);
                self.0.extend(number.to_le_bytes());
            }
        }
    }

    /// The length and the bytes.
    fn text(&mut self, text: &[u8]) {
        self.number(text.len() as u32);
        self.0.extend_from_slice(text);
    }

    fn span(&mut self, span: Span) {
        self.number(span.0);
        self.number(span.1);
    }

    /// The count, and each.
    fn list<T>(&mut self, list: &[T], each: impl Fn(&mut Self, &T)) {
        self.number(list.len() as u32);
        for one in list {
            each(self, one);
        }
    }

    fn case(&mut self, judged: &Judged, by_01: &Lowered) {
        self.list(&judged.case.records.words, |out, word| out.number(*word));
        self.text(&judged.case.records.text);
        self.number(by_01.records as u32);
        self.number(by_01.bytes as u32);
        let answer = &judged.answer;
        self.list(&answer.definitions, Self::definition);
        self.list(&answer.extensions, |out, extension| {
            out.span(extension.span);
            out.span(extension.name_span);
            out.target(&extension.target);
            out.list(&extension.body, Self::definition);
        });
        self.list(&answer.bindings, |out, binding| {
            out.text(&binding.label);
            out.text(&binding.path);
            out.span(binding.span);
        });
        self.list(&answer.lowering, Self::diagnosis);
        self.list(&answer.post, Self::diagnosis);
        self.list(&judged.queries, |out, query| {
            out.text(&query.path);
            out.number(query.contains.into());
            out.list(&query.live, |out, place| out.number(*place as u32));
            out.list(&query.history, |out, place| out.number(*place as u32));
        });
    }

    fn definition(&mut self, definition: &Definition) {
        self.number(definition.kind);
        self.text(&definition.path);
        self.span(definition.span);
        self.span(definition.name_span);
        self.number(definition.omit.into());
        self.list(&definition.labels, |out, label| out.text(label));
        self.list(&definition.values, |out, value| match value {
            Value::String(text) => {
                out.number(8);
                out.text(text);
            }
            Value::Cells(width, cells) => {
                out.number(9);
                out.number(*width);
                out.list(cells, |out, cell| match cell {
                    Cell::Number(number) => {
                        out.number(11);
                        out.number(*number as u32);
                        out.number((*number >> 32) as u32);
                    }
                    Cell::Reference(target) => {
                        out.number(12);
                        out.target(target);
                    }
                });
            }
            Value::Bytes(bytes) => {
                out.number(10);
                out.text(bytes);
            }
            Value::Reference(target) => {
                out.number(12);
                out.target(target);
            }
        });
    }

    fn target(&mut self, target: &Target) {
        self.number(target.form);
        self.text(&target.label);
        self.text(&target.path);
    }

    fn diagnosis(&mut self, found: &Diagnosis) {
        self.number(found.code);
        self.text(&found.text);
        self.span(found.span);
        self.span(found.earlier);
    }
}
