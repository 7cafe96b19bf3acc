//! The one file there is.

use std::fmt;

use dt_tools_diagnostic::Span;

use crate::db::BaseDb;

#[derive(Debug, Clone, Copy, PartialEq, Eq)]
pub struct File;

impl File {
    #[must_use]
    pub fn path(self, _: &dyn BaseDb) -> &'static str {
        "-"
    }
}

pub struct Files;

impl Files {
    #[must_use]
    pub fn get_file(&self, _: &dyn BaseDb, _: &str) -> File {
        File
    }
}

pub struct DisplaySpanLineColumn<'a>(pub &'a Span<File>, pub &'a dyn BaseDb);

impl fmt::Display for DisplaySpanLineColumn<'_> {
    fn fmt(&self, f: &mut fmt::Formatter<'_>) -> fmt::Result {
        write!(f, "{}-{}", self.0.text_range.start, self.0.text_range.end)
    }
}
