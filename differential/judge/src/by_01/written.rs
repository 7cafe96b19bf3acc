//! Lowering as 01's entry point has it: refusals, row 7, and the log written into lent buffers.

use super::{lower::lower_by, queries, rows};
use crate::{
    answer::{Answer, Cell, Definition, Diagnosis, Target, Value},
    by_02::{files::file_of, short_paths::Rules},
    output::{self, RECORD},
    records::{self, Records},
    tree::Span,
};

/// Row 7's own limits.
const MOST_RECORDS: u64 = 65_536;
const MOST_BYTES: u64 = 1 << 24;

/// Lowers records into buffers: number and what is returned.
pub fn lower_records(from: &Records, words: &mut [u32], bytes: &mut [u8]) -> (u32, u32) {
    lower_by_rules(Rules::default(), from, words, bytes)
}

/// The same by other rules for finding nodes.
pub fn lower_by_rules(rules: Rules, from: &Records, words: &mut [u32], bytes: &mut [u8]) -> (u32, u32) {
    if let Some(refusal) = rows::refusal(from) {
        return refusal;
    }
    let lowered = lower_by(rules, &records::read(from), from.level);
    words.fill(0);
    bytes.fill(0);
    let room = MOST_RECORDS.min((words.len() / RECORD) as u64);
    if lowered.records > room || lowered.bytes > MOST_BYTES.min(bytes.len() as u64) {
        return (7, 0);
    }
    write(&lowered.answer, &from.starts, (lowered.records as u32, lowered.bytes as u32), words, bytes);
    (0, 0)
}

/// Writes a log of files that start there, and the counts of what was made, into cleared buffers that have room for it.
pub fn write(answer: &Answer, starts: &[u32], made: (u32, u32), words: &mut [u32], bytes: &mut [u8]) {
    let mut writer = Writer { words, bytes, starts, records: 1, used: 0 };
    writer.words[0] = made.0;
    writer.words[5] = made.1;
    writer.chain(1, &answer.definitions, Writer::definition);
    writer.chain(2, &answer.extensions, |writer, extension| {
        let record = writer.record(13, [b"", b""], extension.span, extension.name_span);
        writer.chain(record + 6, &[&extension.target], |writer, target| writer.target(target));
        writer.chain(record + 8, &extension.body, Writer::definition);
        record
    });
    writer.chain(3, &answer.bindings, |writer, binding| {
        writer.record(14, [&binding.label, &binding.path], binding.span, (0, 0))
    });
    writer.chain(4, &answer.lowering, Writer::diagnosis);
    writer.chain(6, &answer.post, Writer::diagnosis);
}

struct Writer<'a> {
    words: &'a mut [u32],
    bytes: &'a mut [u8],
    starts: &'a [u32],
    records: usize,
    used: usize,
}

impl Writer<'_> {
    /// Writes a chain that the word at `link` leads to; `write` gives where a record begins.
    fn chain<T>(&mut self, link: usize, list: &[T], write: impl Fn(&mut Self, &T) -> usize) {
        let mut link = link;
        for one in list {
            let record = write(self, one);
            self.words[link] = (record / RECORD) as u32;
            link = record + 1;
        }
    }

    fn record(&mut self, kind: u32, texts: [&[u8]; 2], span: Span, name_span: Span) -> usize {
        let record = self.records * RECORD;
        self.records += 1;
        self.words[record] = kind;
        for (word, text) in [2, 4].into_iter().zip(texts) {
            if !text.is_empty() {
                self.words[record + word] = self.used as u32;
                self.words[record + word + 1] = text.len() as u32;
                self.bytes[self.used..self.used + text.len()].copy_from_slice(text);
                self.used += text.len();
            }
        }
        self.words[record + 9..record + 13].copy_from_slice(&[span.0, span.1, name_span.0, name_span.1]);
        // What has no span has 0-0, which lies in file 0.
        let files = [span, name_span].map(|span| file_of(self.starts, span.0));
        self.words[record + 13..record + 15].copy_from_slice(&files);
        record
    }

    fn definition(&mut self, definition: &Definition) -> usize {
        let record =
            self.record(definition.kind, [&definition.path, b""], definition.span, definition.name_span);
        self.words[record + 7] = definition.omit.into();
        self.chain(record + 6, &definition.labels, |writer, label| {
            writer.record(7, [label, b""], (0, 0), (0, 0))
        });
        if definition.kind == 2 {
            self.chain(record + 6, &definition.values, Self::value);
        }
        record
    }

    fn value(&mut self, value: &Value) -> usize {
        match value {
            Value::String(text) => self.record(8, [text, b""], (0, 0), (0, 0)),
            Value::Bytes(bytes) => self.record(10, [bytes, b""], (0, 0), (0, 0)),
            Value::Reference(target) => self.target(target),
            Value::Cells(width, cells) => {
                let record = self.record(9, [b"", b""], (0, 0), (0, 0));
                self.words[record + 7] = *width;
                self.chain(record + 6, cells, |writer, cell| match cell {
                    Cell::Number(number) => {
                        let record = writer.record(11, [b"", b""], (0, 0), (0, 0));
                        writer.words[record + 7] = *number as u32;
                        writer.words[record + 8] = (*number >> 32) as u32;
                        record
                    }
                    Cell::Reference(target) => writer.target(target),
                });
                record
            }
        }
    }

    fn target(&mut self, target: &Target) -> usize {
        let record = self.record(12, [&target.label, &target.path], (0, 0), (0, 0));
        self.words[record + 7] = target.form;
        record
    }

    fn diagnosis(&mut self, found: &Diagnosis) -> usize {
        let record = self.record(15, [&found.text, b""], found.span, found.earlier);
        self.words[record + 7] = found.code;
        record
    }
}

/// The main log's definitions and their record numbers, of a log that `lower_records` wrote.
fn log(words: &[u32], bytes: &[u8]) -> (Answer, Vec<u32>) {
    let output = output::read(words, bytes).expect("a written log");
    (output.answer, output.numbers)
}

/// Puts record numbers into a list: row 10, or their count.
fn listed(places: &[usize], numbers: &[u32], list: &mut [u32]) -> (u32, u32) {
    if places.len() > list.len() {
        return (10, places.len() as u32);
    }
    for (slot, place) in list.iter_mut().zip(places) {
        *slot = numbers[*place];
    }
    (0, places.len() as u32)
}

pub fn live(words: &[u32], bytes: &[u8], base: &[u8], list: &mut [u32]) -> (u32, u32) {
    let (answer, numbers) = log(words, bytes);
    listed(&queries::live(&answer.definitions, base), &numbers, list)
}

pub fn history(words: &[u32], bytes: &[u8], path: &[u8], list: &mut [u32]) -> (u32, u32) {
    let (answer, numbers) = log(words, bytes);
    listed(&queries::history(&answer.definitions, path), &numbers, list)
}

pub fn contains_node(words: &[u32], bytes: &[u8], path: &[u8]) -> (u32, u32) {
    (0, queries::contains_node(&log(words, bytes).0.definitions, path).into())
}
