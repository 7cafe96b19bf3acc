//! 01's rules, and those of 02's requests 2, 5 and 10, written from their sentences (and the settled readings),
//! not from docs/src. What requests 5 and 10 say of paths and expressions is in `by_02`.
//!
//! The Rust is compared with these, so that a sentence of 01 that says something else than the
//! Rust is found; and they answer what the Rust can't be asked: which descriptions are refused, the
//! form of paths, which logs break the output rules, and how many records and bytes lowering makes.

pub mod expressions;
pub mod lower;
pub mod numbers;
pub mod paths;
pub mod post;
pub mod queries;
pub mod row_8;
pub mod rows;
pub mod values;
pub mod written;
