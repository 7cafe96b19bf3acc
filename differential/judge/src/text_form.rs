//! The judge's text form and 01's listing. README.md describes the text form.

use std::fmt::Write;

use crate::{
    answer::{Answer, Cell, Definition, Diagnosis, Query, Target, Text, Value},
    by_02::files::Files,
    tree::Span,
    worked::{escaped, hex},
};

const LETTERS: [&str; 7] = ["?", "N", "P", "X", "Y", "V", "G"];

/// All of an answer, one line for each thing.
pub fn text_form(answer: &Answer, queries: &[Query]) -> String {
    let mut out = String::new();
    definitions(&mut out, "", &answer.definitions);
    for extension in &answer.extensions {
        let _ = writeln!(
            out,
            "E {} {} {}",
            target(&extension.target),
            span(extension.span),
            span(extension.name_span)
        );
        definitions(&mut out, "+", &extension.body);
    }
    for binding in &answer.bindings {
        let _ = writeln!(out, "B {} {} {}", text(&binding.label), text(&binding.path), span(binding.span));
    }
    diagnoses(&mut out, "M", &answer.lowering);
    diagnoses(&mut out, "P", &answer.post);
    for query in queries {
        let path = text(&query.path);
        let _ = writeln!(out, "L {path}{}", numbers(&query.live));
        let _ = writeln!(out, "H {path}{}", numbers(&query.history));
        let _ = writeln!(out, "C {path} {}", u32::from(query.contains));
    }
    out
}

/// The same with words 13 and 14 behind each record that has files, as ` in 13 14`.
pub fn with_files(answer: &Answer, queries: &[Query], files: &Files) -> String {
    let mut pairs = files.in_order().into_iter();
    let mut out = String::new();
    for line in text_form(answer, queries).lines() {
        out += line;
        if ["D ", "+D ", "E ", "B ", "M ", "P "].iter().any(|begins| line.starts_with(begins)) {
            let [file, name_file] = pairs.next().expect("as many as records");
            let _ = write!(out, " in {file} {name_file}");
        }
        out += "\n";
    }
    out
}

fn definitions(out: &mut String, before: &str, definitions: &[Definition]) {
    for definition in definitions {
        let _ = writeln!(
            out,
            "{before}D {} {} {} {}{}",
            LETTERS[definition.kind as usize],
            text(&definition.path),
            span(definition.span),
            span(definition.name_span),
            if definition.omit { " omit" } else { "" }
        );
        for label in &definition.labels {
            let _ = writeln!(out, "{before}l {}", text(label));
        }
        for value in &definition.values {
            match value {
                Value::String(string) => drop(writeln!(out, "{before}s {}", text(string))),
                Value::Bytes(bytes) => drop(writeln!(out, "{before}b {}", hex(bytes))),
                Value::Reference(to) => drop(writeln!(out, "{before}r {}", target(to))),
                Value::Cells(width, cells) => {
                    let _ = writeln!(out, "{before}c {width}");
                    for cell in cells {
                        match cell {
                            Cell::Number(number) => drop(writeln!(out, "{before}n {number}")),
                            Cell::Reference(to) => drop(writeln!(out, "{before}p {}", target(to))),
                        }
                    }
                }
            }
        }
    }
}

fn diagnoses(out: &mut String, letter: &str, diagnoses: &[Diagnosis]) {
    for found in diagnoses {
        let _ = write!(out, "{letter} {} {} {}", found.code, text(&found.text), span(found.span));
        let _ = if found.code == 20 { writeln!(out, " {}", span(found.earlier)) } else { writeln!(out) };
    }
}

fn span(span: Span) -> String {
    format!("{}-{}", span.0, span.1)
}

fn target(target: &Target) -> String {
    format!("{} {} {}", target.form, text(&target.label), text(&target.path))
}

/// A text without spaces: `-` if empty, else with \xHH for a space, a lone `-` and what can't be printed.
fn text(text: &Text) -> String {
    match &text[..] {
        [] => "-".to_owned(),
        [b'-'] => "\\x2d".to_owned(),
        text => escaped(text).replace(' ', "\\x20"),
    }
}

fn numbers(numbers: &[usize]) -> String {
    numbers.iter().map(|number| format!(" {number}")).collect()
}

/// What 01's listing program prints, as bytes.
pub fn listing(answer: &Answer) -> Vec<u8> {
    let mut out = Vec::new();
    for definition in &answer.definitions {
        let path = if definition.path.is_empty() { b"-" } else { &definition.path[..] };
        out.extend(format!("D {} ", LETTERS[definition.kind as usize]).bytes());
        out.extend_from_slice(path);
        out.extend(format!(" {} {}\n", span(definition.span), span(definition.name_span)).bytes());
        for label in &definition.labels {
            out.extend([b"l ", &label[..], b"\n"].concat());
        }
    }
    for binding in &answer.bindings {
        out.extend([b"B ", &binding.label[..], b" ", &binding.path[..]].concat());
        out.extend(format!(" {}\n", span(binding.span)).bytes());
    }
    for found in answer.lowering.iter().chain(&answer.post) {
        out.extend(format!("M {} {}\n", found.code, span(found.span)).bytes());
    }
    out.extend(b".\n");
    out
}
