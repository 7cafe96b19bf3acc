//! Preprocessing that has nothing to do: the tree is the preprocessed one.

use dt_tools_diagnostic::{MultiSpan, TextRange};
use dt_tools_parser::parser;

use crate::{db::BaseDb, file::File};

#[derive(Debug, Clone, Copy, PartialEq, Eq, Hash)]
pub struct PreprocessedText;

#[derive(Clone, Copy)]
pub struct PreprocessedRoot<'db>(&'db dyn BaseDb);

pub struct SourceFile {
    pub path: String,
}

impl SourceFile {
    #[must_use]
    pub fn is_command_line(&self) -> bool {
        false
    }
}

impl<'db> PreprocessedRoot<'db> {
    #[must_use]
    pub fn sources(self, _: &dyn BaseDb) -> &'db [SourceFile] {
        &[]
    }
}

#[derive(Clone, Copy)]
pub struct Parse<'db>(&'db dyn BaseDb);

impl<'db> Parse<'db> {
    #[must_use]
    pub fn parse(self, _: &dyn BaseDb) -> &'db parser::Parse<'static> {
        self.0.parse()
    }
}

pub fn preprocess_root(db: &dyn BaseDb, _: File) -> Option<PreprocessedRoot<'_>> {
    Some(PreprocessedRoot(db))
}

pub fn preprocessed_parse(db: &dyn BaseDb, _: File) -> Option<Parse<'_>> {
    Some(Parse(db))
}

pub fn resolve_range(_: &dyn BaseDb, _: PreprocessedRoot<'_>, text_range: TextRange) -> MultiSpan<File> {
    MultiSpan::from(text_range.within_file(File))
}
