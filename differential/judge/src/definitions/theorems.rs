//! A description with the Rust's answers as theorems: the text of a file.

use std::fmt::Write as _;

use super::{Sample, asked};
use crate::{
    answer::{Answer, Binding, Cell, Definition, Diagnosis, Extension, Query, Target, Value},
    boxes::Case,
    by_01::lower::Lowered,
    by_02::{boxes, files},
    leaves, notation,
    records::{Records, SIGNED, UNSIGNED},
    tree::Span,
};

/// How a file begins.
const HEAD: &str = "-- Descriptions with the Rust's answers, in the judge's notation and as words and text.
use Rattle.std.specs.Prelude.{ℕ, true, false, ◌≡◌, refl, List, [], ◌∷◌}
use Rattle.std.proofs.Math.Option.{some, none}
use Rattle.slashes.specs.meaning.Slash.{next_slash}
use Rattle.paths_numbers.specs.meaning.Reference.{label, label_path, path}
use Rattle.definition_log.specs.meaning.Contents.{Def, number, reference, string, cell_list, bytestring, phandle}
use Rattle.definition_log.specs.meaning.Contents.{node, property, deleted_node, deleted_property, version, plugin}
use Rattle.queries.specs.meaning.Live.{live, contains_node}
use Rattle.queries.specs.meaning.History.{history}
use Rattle.making.specs.meaning.State.{State}
use Rattle.post_checks.specs.meaning.Post.{post_checks}
use Rattle.input.specs.meaning.Rows.{verdict, accepted, refused}
use Rattle.levels.specs.meaning.Rules.{is_level}
use Rattle.files.specs.meaning.Files.{file_of, good_files}
use Rattle.boxes.specs.meaning.Box.{read_answer, packed_value, write_answer, packed_bytes, write_out}
use Rattle.lowering.specs.meaning.Lowered.{meaning, records_made, bytes_made}
use Rattle.judged.specs.Computed.{computed, span, definition, extension, binding, diagnostic}
";

/// The most bytes of a slice that is written out.
const MOST_BYTES: usize = 16;

/// A file, and how many theorems it has.
pub struct File {
    pub out: String,
    pub theorems: usize,
}

impl File {
    pub fn new() -> Self {
        Self { out: HEAD.to_owned(), theorems: 0 }
    }

    /// Which numbers are levels.
    pub fn levels(&mut self, numbers: &[u32]) {
        for number in numbers {
            let is = [SIGNED, UNSIGNED].contains(number);
            self.theorem(&format!("level-{number}"), &format!("is_level {number}"), &is.to_string());
        }
    }

    /// Whether a list of files' starts is good, and which files some places lie in.
    pub fn starts(&mut self, number: usize, starts: &[u32], places: &[u32]) {
        let (at, list) = (format!("{number:03}"), inner(listed(starts, u32::to_string)));
        let is_good = files::faults(starts).is_empty();
        self.theorem(&format!("good-{at}"), &format!("good_files {list}"), &is_good.to_string());
        for place in places {
            let file = files::file_of(starts, *place).to_string();
            self.theorem(&format!("file-{at}-{place}"), &format!("file_of {list} {place}"), &file);
        }
    }

    /// Where the first "/" of a text stands at or behind a place.
    pub fn next_slash(&mut self, number: usize, text: &[u8], from: usize) {
        let found = leaves::next_slash(text, from);
        let due = found.map_or("none".to_owned(), |place| format!("some {place}"));
        let left = format!("next_slash {} {from}", inner(listed(text, u8::to_string)));
        self.theorem(&format!("slash-{number:03}"), &left, &due);
    }

    /// What a box number is read as, or what is written of one.
    pub fn box_number(&mut self, number: usize, case: &Case) {
        match case {
            Case::Read(bytes) => self.read_box(&format!("{number:03}"), bytes),
            Case::Write(value, length) => self.write_box(&format!("{number:03}"), *value, *length),
        }
    }

    fn read_box(&mut self, at: &str, bytes: &[u8]) {
        let read = boxes::read(bytes);
        let (answer, value) = read.map_or_else(|answer| (answer, 0), |value| (0, value));
        let due = format!("record {{ number = {answer}; value = {value} }}");
        self.theorem(&format!("box-{at}"), &format!("read_answer {}", text(bytes)), &due);
        if answer != boxes::BAD_LENGTH {
            let due = read.map_or("none".to_owned(), |value| format!("some {value}"));
            self.theorem(&format!("box-value-{at}"), &format!("packed_value {}", text(bytes)), &due);
        }
    }

    fn write_box(&mut self, at: &str, value: u64, length: usize) {
        let written = boxes::written(value, length);
        let answer = written.as_ref().err().copied().unwrap_or(0);
        let due = format!("record {{ number = {answer}; returned = 0 }}");
        self.theorem(&format!("packed-{at}"), &format!("write_answer {length} {value}"), &due);
        if let Ok(bytes) = &written {
            let due = listed(bytes, u8::to_string);
            self.theorem(&format!("packed-bytes-{at}"), &format!("packed_bytes {length} {value}"), &due);
        }
        if length <= MOST_BYTES {
            // What the slice holds before: bytes that differ.
            let held: Vec<u8> = (200..).take(length).collect();
            let due = listed(written.as_ref().unwrap_or(&held), u8::to_string);
            self.theorem(&format!("packed-slice-{at}"), &format!("write_out {} {value}", text(&held)), &due);
        }
    }

    fn theorem(&mut self, name: &str, left: &str, right: &str) {
        self.theorems += 1;
        let _ = write!(self.out, "\npub {name} : {left} ≡ {right}\nunfolding computed\n{name} = refl\n");
    }

    fn named(&mut self, name: &str, kind: &str, value: &str) {
        let _ = write!(self.out, "\nabbrev {name} : {kind}\n{name} = {value}\n");
    }

    pub fn sample(&mut self, number: usize, sample: &Sample) {
        let Sample { about, judged, damaged } = sample;
        let at = format!("{number:03}");
        let Records { words, text: bytes, level, .. } = &judged.case.records;
        let _ =
            write!(self.out, "\n-- {at}, {about}, level {level}: {}\n", notation::written(&judged.case.top));
        self.named(&format!("words-{at}"), "List ℕ", &listed(words, u32::to_string));
        self.named(&format!("text-{at}"), "List ℕ", &listed(bytes, u8::to_string));
        if *level == SIGNED {
            self.theorem(&format!("accepted-{at}"), &format!("verdict words-{at} text-{at}"), "accepted");
        }
        if let Some((records, (cause, returned))) = damaged {
            let words = listed(&records.words, u32::to_string);
            let left = format!("verdict ({words}) text-{at}");
            self.theorem(&format!("refused-{at}"), &left, &format!("refused {cause} {returned}"));
        }
        let state = format!("meaning {level} words-{at} text-{at}");
        self.answer(&at, &state, &judged.answer, &judged.by_01);
        self.queries(&at, &state, &judged.queries);
    }

    fn answer(&mut self, at: &str, state: &str, answer: &Answer, by_01: &Lowered) {
        for (place, made) in answer.definitions.iter().enumerate() {
            self.named(&format!("d{at}-{place}"), "Def", &definition(made));
        }
        let places: Vec<usize> = (0..answer.definitions.len()).collect();
        for (part, due) in [
            ("defs", by_place(at, &places)),
            ("exts", listed(&answer.extensions, extension)),
            ("binds", listed(&answer.bindings, binding)),
            ("diags", listed(&answer.lowering, diagnostic)),
        ] {
            self.theorem(&format!("{part}-{at}"), &format!("({state}).{part}"), &due);
        }
        for (name, of, due) in [
            ("post", "post_checks", listed(&answer.post, diagnostic)),
            ("records", "records_made", by_01.records.to_string()),
            ("bytes", "bytes_made", by_01.bytes.to_string()),
        ] {
            self.theorem(&format!("{name}-{at}"), &format!("{of} ({state})"), &due);
        }
    }

    fn queries(&mut self, at: &str, state: &str, queries: &[Query]) {
        let defs = format!("({state}).defs");
        for (place, query) in asked(queries).into_iter().enumerate() {
            let path = text(&query.path);
            for (name, of, due) in [
                ("live", "live", by_place(at, &query.live)),
                ("history", "history", by_place(at, &query.history)),
                ("contains", "contains_node", query.contains.to_string()),
            ] {
                self.theorem(&format!("{name}-{at}-{place}"), &format!("{of} {path} {defs}"), &due);
            }
        }
    }
}

/// Definitions by their place in the main log.
fn by_place(at: &str, places: &[usize]) -> String {
    listed(places, |place| format!("d{at}-{place}"))
}

fn listed<T>(all: &[T], one: impl Fn(&T) -> String) -> String {
    all.iter().map(|each| one(each) + " ∷ ").collect::<String>() + "[]"
}

/// In parentheses, unless it is one word.
fn inner(text: String) -> String {
    if text.contains(' ') { format!("({text})") } else { text }
}

fn text(bytes: &[u8]) -> String {
    inner(listed(bytes, u8::to_string))
}

fn span((from, to): Span) -> String {
    format!("(span {from} {to})")
}

fn definition(made: &Definition) -> String {
    let value = match made.kind {
        1 => format!("(node {} {})", inner(listed(&made.labels, |label| text(label))), made.omit),
        2 => format!("(property {})", inner(listed(&made.values, value))),
        3 => "deleted_node".to_owned(),
        4 => "deleted_property".to_owned(),
        5 => "version".to_owned(),
        _ => "plugin".to_owned(),
    };
    format!("definition {} {value} {} {}", text(&made.path), span(made.span), span(made.name_span))
}

fn value(value: &Value) -> String {
    match value {
        Value::String(string) => format!("string {}", text(string)),
        Value::Cells(width, cells) => format!("cell_list {width} {}", inner(listed(cells, cell))),
        Value::Bytes(bytes) => format!("bytestring {}", text(bytes)),
        Value::Reference(to) => format!("phandle ({})", target(to)),
    }
}

fn cell(cell: &Cell) -> String {
    match cell {
        Cell::Number(number) => format!("number {number}"),
        Cell::Reference(to) => format!("reference ({})", target(to)),
    }
}

fn target(to: &Target) -> String {
    match to.form {
        1 => format!("label {}", text(&to.label)),
        2 => format!("label_path {} {}", text(&to.label), text(&to.path)),
        _ => format!("path {}", text(&to.path)),
    }
}

fn extension(made: &Extension) -> String {
    let body = inner(listed(&made.body, definition));
    format!("extension ({}) {body} {} {}", target(&made.target), span(made.span), span(made.name_span))
}

fn binding(made: &Binding) -> String {
    format!("binding {} {} {}", text(&made.label), text(&made.path), span(made.span))
}

fn diagnostic(found: &Diagnosis) -> String {
    format!("diagnostic {} {} {} {}", found.code, text(&found.text), span(found.span), span(found.earlier))
}
