//! Which file a place lies in (request 3), and which lists of files' starts are good.

use crate::answer::{Answer, Definition, Diagnosis};

/// "Racks are built from up to 16 files run together."
pub const MOST_FILES: usize = 16;

/// The code whose name span is the earlier binding's.
const DUPLICATE: u32 = 20;

/// "the number, from 0, of the last start not above" a place, of a list that is good.
pub fn file_of(starts: &[u32], place: u32) -> u32 {
    starts.iter().rposition(|start| *start <= place).expect("a good list begins with 0") as u32
}

/// What is wrong with a list: "empty, has over 16 entries, doesn't begin with 0 or doesn't rise strictly".
#[derive(Debug, Clone, Copy, PartialEq, Eq)]
pub enum Bad {
    Empty,
    Over,
    First,
    NotRising,
}

/// All that is wrong with a list; nothing if it is good.
pub fn faults(starts: &[u32]) -> Vec<Bad> {
    let found = [
        (Bad::Empty, starts.is_empty()),
        (Bad::Over, starts.len() > MOST_FILES),
        (Bad::First, starts.first().is_some_and(|first| *first != 0)),
        (Bad::NotRising, starts.windows(2).any(|pair| pair[0] >= pair[1])),
    ];
    found.into_iter().filter(|(_, holds)| *holds).map(|(bad, _)| bad).collect()
}

/// Words 13 and 14 of a record.
pub type Pair = [u32; 2];

/// These words of a log's records, in the order of their chains.
#[derive(Debug, Clone, Default, PartialEq, Eq)]
pub struct Files {
    pub definitions: Vec<Pair>,
    /// Each with those of the definitions in its body.
    pub extensions: Vec<(Pair, Vec<Pair>)>,
    pub bindings: Vec<Pair>,
    pub lowering: Vec<Pair>,
    pub post: Vec<Pair>,
}

impl Files {
    /// Those of a log, of whose description the files start there. A binding has no name span, and of the diagnostics only code
    /// 20 has one.
    pub fn of(answer: &Answer, starts: &[u32]) -> Self {
        let file = |place: u32| file_of(starts, place);
        let definition = |made: &Definition| [file(made.span.0), file(made.name_span.0)];
        let diagnosis = |found: &Diagnosis| {
            [file(found.span.0), if found.code == DUPLICATE { file(found.earlier.0) } else { 0 }]
        };
        let extensions = answer.extensions.iter().map(|made| {
            let body = made.body.iter().map(definition).collect();
            ([file(made.span.0), file(made.name_span.0)], body)
        });
        Self {
            definitions: answer.definitions.iter().map(definition).collect(),
            extensions: extensions.collect(),
            bindings: answer.bindings.iter().map(|made| [file(made.span.0), 0]).collect(),
            lowering: answer.lowering.iter().map(diagnosis).collect(),
            post: answer.post.iter().map(diagnosis).collect(),
        }
    }

    /// All of them: an extension before its body.
    pub fn in_order(&self) -> Vec<Pair> {
        let extensions = self.extensions.iter().flat_map(|(pair, body)| [pair].into_iter().chain(body));
        let diagnostics = self.bindings.iter().chain(&self.lowering).chain(&self.post);
        self.definitions.iter().chain(extensions).chain(diagnostics).copied().collect()
    }

    /// The part in which others differ.
    pub fn difference(&self, other: &Self) -> Option<&'static str> {
        let parts = [
            ("the files of definitions", self.definitions == other.definitions),
            ("the files of extensions and their bodies", self.extensions == other.extensions),
            ("the files of bindings", self.bindings == other.bindings),
            ("the files of lowering's diagnostics", self.lowering == other.lowering),
            ("the files of the post checks' diagnostics", self.post == other.post),
        ];
        parts.into_iter().find(|(_, same)| !same).map(|(part, _)| part)
    }
}
