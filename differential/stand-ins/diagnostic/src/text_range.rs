//! A range of byte places.

use crate::Span;

/// Start and end of a range.
///
/// `origin` says which part of a built tree the range was given to (its place in the walk of the
/// tree, or 0). The code of docs/src never looks at it; the judge uses it to know the order in
/// which bindings were made.
#[derive(Debug, Clone, Copy, PartialEq, Eq, Hash)]
pub struct TextRange {
    pub start: usize,
    pub end: usize,
    pub origin: u32,
}

impl TextRange {
    pub fn within_file<F>(self, file: F) -> Span<F> {
        Span { text_range: self, file }
    }

    /// From this range's start to the later of both ends, as 01 says it.
    #[must_use]
    pub fn to(self, other: Self) -> Self {
        Self { end: self.end.max(other.end), ..self }
    }
}
