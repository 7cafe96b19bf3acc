//! The Rust's answers on a log that was lent: its definitions, put into a `Mir`.

use dt_tools_diagnostic::{Span, TextRange};
use dt_tools_lowering::{
    mir::{Mir, MirDefinition, MirDefinitionValue, MirNodeData, MirPropertyData},
    preprocess::PreprocessedText,
};

use super::layout::Log;
use crate::{
    answer::{Definition, Query, Text},
    judge,
    output::RECORD,
};

/// A log as the Rust has it, and the record numbers of its definitions.
pub struct RustLog {
    pub mir: Mir,
    pub numbers: Vec<u32>,
    /// Whether all texts are UTF-8, which the Rust's are. Else each byte is shown to it as the letter of
    /// that number, which leaves "/" alone and keeps texts apart that are not equal.
    utf_8: bool,
}

/// What the queries answer, by record numbers.
#[derive(Debug)]
pub struct Due {
    pub live: Vec<u32>,
    pub history: Vec<u32>,
    pub contains: bool,
}

impl RustLog {
    /// Reads the definitions of a log that keeps the output rules; `asked` are the paths to ask for.
    pub fn read(log: &Log, asked: &[Text]) -> Self {
        let definitions = definitions(log);
        let mut texts = definitions.iter().map(|(_, _, path)| *path).chain(asked.iter().map(Vec::as_slice));
        let utf_8 = texts.all(|text| str::from_utf8(text).is_ok());
        let mut mir = Mir::default();
        for (_, kind, path) in &definitions {
            mir.definitions.push(definition(*kind, shown(path, utf_8)));
        }
        Self { mir, numbers: definitions.iter().map(|(number, _, _)| *number).collect(), utf_8 }
    }

    pub fn due(&self, path: &[u8]) -> Due {
        let query = judge::query(&self.mir, &shown(path, self.utf_8), path.to_vec());
        let numbers = |places: &[usize]| places.iter().map(|place| self.numbers[*place]).collect();
        Due { live: numbers(&query.live), history: numbers(&query.history), contains: query.contains }
    }

    pub fn is_utf_8(&self) -> bool {
        self.utf_8
    }
}

/// What docs/src answers for paths on a log that it did not lower.
pub fn queries(log: &[Definition], paths: Vec<Text>) -> Vec<Query> {
    let mut mir = Mir::default();
    mir.definitions.extend(log.iter().map(|made| definition(made.kind, shown(&made.path, true))));
    paths.into_iter().map(|path| judge::query(&mir, &shown(&path, true), path)).collect()
}

/// The main chain's definitions: number, kind, path.
pub fn definitions(log: &Log) -> Vec<(u32, u32, &[u8])> {
    let mut found = Vec::new();
    let mut number = log.words[1];
    while number != 0 {
        let words = &log.words[number as usize * RECORD..][..RECORD];
        found.push((number, words[0], &log.bytes[words[2] as usize..][..words[3] as usize]));
        number = words[1];
    }
    found
}

/// A text as the Rust gets it.
fn shown(text: &[u8], utf_8: bool) -> String {
    if utf_8 {
        str::from_utf8(text).expect("looked at before").to_owned()
    } else {
        text.iter().copied().map(char::from).collect()
    }
}

fn definition(kind: u32, path: String) -> MirDefinition {
    let nowhere: Span<PreprocessedText> =
        TextRange { start: 0, end: 0, origin: 0 }.within_file(PreprocessedText);
    let value = match kind {
        1 => MirDefinitionValue::Node(MirNodeData { labels: Vec::new(), omit_if_no_ref: false }),
        2 => MirDefinitionValue::Property(MirPropertyData { values: Vec::new() }),
        3 => MirDefinitionValue::DeletedNode,
        4 => MirDefinitionValue::DeletedProperty,
        5 => MirDefinitionValue::V1Directive,
        _ => MirDefinitionValue::PluginDirective,
    };
    MirDefinition { path, value, provenance: nowhere, name_span: nowhere }
}
