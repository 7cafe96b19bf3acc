//! The lowering code of docs/src over stand-ins for what it leans on: `db`, `file` and
//! `preprocess` (which 01 leaves out) hand a built tree to `lower_root_file`.

#![allow(dead_code, reason = "docs/src has functions for others than lowering")]
#![allow(clippy::result_unit_err, reason = "docs/src is compiled as it is")]

pub mod db;
pub mod file;
pub mod preprocess;

include!(concat!(env!("OUT_DIR"), "/modules.rs"));

use std::sync::Arc;

use dt_tools_diagnostic::Diagnostic;
use dt_tools_parser::cst::RedNode;

use db::{BaseDb, Database};
use lowering::{LoweredFile, lower_root_file};
use preprocess::PreprocessedText;

/// The database that holds a tree and what its lowering gives.
#[must_use]
pub fn database(tree: Arc<RedNode>) -> Database {
    Database::new(tree)
}

/// Lowers the tree of a database, once.
///
/// # Panics
///
/// Panics where the Rust does.
#[must_use]
pub fn lower(db: &Database) -> LoweredFile<'_> {
    lower_root_file(db, file::File).expect("the file is there")
}

/// The post checks of a lowered tree.
#[must_use]
pub fn check<'db>(db: &'db Database, lowered: LoweredFile<'db>) -> Vec<Diagnostic<PreprocessedText>> {
    check_mir_post::check_mir_post(db as &dyn BaseDb, lowered)
}

/// lib.rs of docs/src adds a tag to each message; the judge needs none.
pub(crate) fn tag_diagnostics<F>(_: &mut [Diagnostic<F>], _: &str) {}
