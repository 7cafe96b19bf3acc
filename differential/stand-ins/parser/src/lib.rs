//! Stand-in for `dt_tools_parser`: the tree that `ast.rs` of docs/src looks at. There is no lexer
//! and no parser; trees are built directly.

pub mod cst;
pub mod lexer;
pub mod parser;

pub use dt_tools_diagnostic::TextRange;

include!(concat!(env!("OUT_DIR"), "/modules.rs"));
