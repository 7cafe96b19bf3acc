//! What lowering and the queries answer, as plain data: 01's output without record numbers.

use crate::tree::Span;

pub type Text = Vec<u8>;

#[derive(Debug, Clone, Default, PartialEq, Eq)]
pub struct Answer {
    pub definitions: Vec<Definition>,
    pub extensions: Vec<Extension>,
    pub bindings: Vec<Binding>,
    pub lowering: Vec<Diagnosis>,
    pub post: Vec<Diagnosis>,
}

/// Kinds: 1 node, 2 property, 3 deleted node, 4 deleted property, 5 version, 6 plugin.
#[derive(Debug, Clone, Default, PartialEq, Eq)]
pub struct Definition {
    pub kind: u32,
    pub path: Text,
    pub span: Span,
    pub name_span: Span,
    pub omit: bool,
    pub labels: Vec<Text>,
    pub values: Vec<Value>,
}

#[derive(Debug, Clone, PartialEq, Eq)]
pub enum Value {
    String(Text),
    Cells(u32, Vec<Cell>),
    Bytes(Text),
    Reference(Target),
}

#[derive(Debug, Clone, PartialEq, Eq)]
pub enum Cell {
    Number(u64),
    Reference(Target),
}

/// A reference: 1 label, 2 label and path, 3 path.
#[derive(Debug, Clone, PartialEq, Eq)]
pub struct Target {
    pub form: u32,
    pub label: Text,
    pub path: Text,
}

#[derive(Debug, Clone, PartialEq, Eq)]
pub struct Extension {
    pub target: Target,
    pub body: Vec<Definition>,
    pub span: Span,
    pub name_span: Span,
}

#[derive(Debug, Clone, PartialEq, Eq)]
pub struct Binding {
    pub label: Text,
    pub path: Text,
    pub span: Span,
}

/// A diagnostic. `earlier` is the earlier binding of code 20, else 0-0.
#[derive(Debug, Clone, PartialEq, Eq)]
pub struct Diagnosis {
    pub code: u32,
    pub text: Text,
    pub span: Span,
    pub earlier: Span,
}

/// A path and what the queries answer for it; definitions by their place in the main log.
#[derive(Debug, Clone, PartialEq, Eq)]
pub struct Query {
    pub path: Text,
    pub live: Vec<usize>,
    pub history: Vec<usize>,
    pub contains: bool,
}
