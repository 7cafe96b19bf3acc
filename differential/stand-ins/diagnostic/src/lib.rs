//! Stand-in for `dt_tools_diagnostic`: spans and diagnostics as plain data.

use std::borrow::Cow;

pub mod text_range;

pub use text_range::TextRange;

/// A range in a file.
#[derive(Debug, Clone, Copy, PartialEq, Eq, Hash)]
pub struct Span<F> {
    pub text_range: TextRange,
    pub file: F,
}

pub type DiagnosticMessage = Cow<'static, str>;

#[derive(Debug, Clone, Copy, PartialEq, Eq)]
pub enum Severity {
    Warn,
    Error,
}

#[derive(Debug, Clone, PartialEq, Eq)]
pub struct SpanLabel<F> {
    pub span: Span<F>,
    pub msg: DiagnosticMessage,
}

#[derive(Debug, Clone, PartialEq, Eq)]
pub struct MultiSpan<F> {
    pub primary_spans: Vec<Span<F>>,
    pub span_labels: Vec<SpanLabel<F>>,
}

impl<F> MultiSpan<F> {
    #[must_use]
    pub fn with_span_label(mut self, label: SpanLabel<F>) -> Self {
        self.span_labels.push(label);
        self
    }
}

impl<F> From<Span<F>> for MultiSpan<F> {
    fn from(span: Span<F>) -> Self {
        Self { primary_spans: vec![span], span_labels: Vec::new() }
    }
}

#[derive(Debug, Clone, PartialEq, Eq)]
pub struct Diagnostic<F> {
    pub span: MultiSpan<F>,
    pub msg: DiagnosticMessage,
    pub severity: Severity,
}
