//! The database: one tree, and one kept result.

use std::{any::Any, cell::OnceCell, sync::Arc};

use dt_tools_parser::{cst::RedNode, parser::Parse};

use crate::file::Files;

pub trait BaseDb {
    fn get_files(&self) -> &Files;
    fn parse(&self) -> &Parse<'static>;
    fn kept(&self) -> &Kept;
}

/// Room for one value of any type.
#[derive(Default)]
pub struct Kept(OnceCell<Box<dyn Any>>);

impl Kept {
    /// # Panics
    ///
    /// Panics when called twice: a database lowers one tree.
    pub fn keep<T: 'static>(&self, value: T) -> &T {
        assert!(self.0.set(Box::new(value)).is_ok(), "a database keeps one result");
        self.0.get().and_then(|kept| kept.downcast_ref()).expect("just kept")
    }
}

pub struct Database {
    parse: Parse<'static>,
    files: Files,
    kept: Kept,
}

impl Database {
    pub(crate) fn new(tree: Arc<RedNode>) -> Self {
        Self { parse: Parse::of_tree(tree), files: Files, kept: Kept::default() }
    }
}

impl BaseDb for Database {
    fn get_files(&self) -> &Files {
        &self.files
    }

    fn parse(&self) -> &Parse<'static> {
        &self.parse
    }

    fn kept(&self) -> &Kept {
        &self.kept
    }
}
