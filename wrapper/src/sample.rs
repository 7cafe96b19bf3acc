//! A small description and its log, to try things on: those of
//!
//! ```text
//! /dts-v1/;
//! / { a: b { }; };
//! / { p; c { q; }; /delete-node/ c; };
//! ```
//!
//! The last line may be a file of its own, [`files`]; the log is that of one file.
//!
//! ```
//! use definition_log::sample;
//!
//! let log = sample::log();
//! assert!(log.contains_node("/b")?);
//! assert!(!log.contains_node("/c")?);
//! # Ok::<(), definition_log::QueryError>(())
//! ```

use crate::{Description, Files, Log};

/// The source, in which the description has its texts.
const SOURCE: &[u8] = b"/dts-v1/;\n/ { a: b { }; };\n/ { p; c { q; }; /delete-node/ c; };";

/// The description's records: kind, next, child, text, W, span. Record 0 has the first top item as its
/// child.
#[rustfmt::skip]
static DESCRIBED: [[u32; 8]; 18] = [
    [0, 0, 1, 0, 0, 0, 0, 0],
    [3, 2, 0, 0, 0, 1, 0, 9],      // the version
    [1, 8, 3, 0, 0, 4, 10, 26],    // node /
    [10, 0, 0, 0, 0, 0, 10, 11],
    [1, 0, 5, 0, 0, 0, 14, 23],    // node b, in it
    [7, 7, 6, 0, 0, 0, 14, 16],    // its label
    [5, 0, 0, 14, 1, 0, 14, 15],
    [5, 0, 0, 17, 1, 0, 17, 18],
    [1, 0, 9, 0, 0, 10, 27, 63],   // node /
    [10, 0, 0, 0, 0, 0, 27, 28],
    [2, 12, 11, 0, 0, 0, 31, 33],  // property p, in it
    [5, 0, 0, 31, 1, 0, 31, 32],
    [1, 16, 13, 0, 0, 14, 34, 43], // node c, next to it
    [5, 0, 0, 34, 1, 0, 34, 35],
    [2, 0, 15, 0, 0, 0, 38, 40],   // property q, in that
    [5, 0, 0, 38, 1, 0, 38, 39],
    [3, 0, 17, 0, 0, 4, 44, 60],   // the deletion of c
    [5, 0, 0, 58, 1, 0, 58, 59],
];

/// The log's texts, one behind the other.
const BYTES: &[u8] = b"//baa/b//p/c/c/q/c";

/// The log's records: kind, next, text, second text, child, N, M, span, name span, their files, zero.
/// Record 0 has the records used, the first definition, extension, binding, diagnostic, the bytes used, and
/// the first post-check diagnostic.
#[rustfmt::skip]
static RECORDS: [[u32; 16]; 11] = [
    [11, 1, 0, 5, 0, 18, 0, 0, 0, 0, 0, 0, 0, 0, 0, 0],
    [5, 2, 0, 0, 0, 0, 0, 0, 0, 0, 9, 0, 9, 0, 0, 0],       // the version
    [1, 3, 0, 1, 0, 0, 0, 0, 0, 10, 26, 10, 11, 0, 0, 0],   // node /
    [1, 6, 1, 2, 0, 0, 4, 0, 0, 14, 23, 17, 18, 0, 0, 0],   // node /b
    [7, 0, 3, 1, 0, 0, 0, 0, 0, 0, 0, 0, 0, 0, 0, 0],       // its label, a
    [14, 0, 4, 1, 5, 2, 0, 0, 0, 14, 16, 0, 0, 0, 0, 0],    // a is /b
    [1, 7, 7, 1, 0, 0, 0, 0, 0, 27, 63, 27, 28, 0, 0, 0],   // node /
    [2, 8, 8, 2, 0, 0, 0, 0, 0, 31, 33, 31, 32, 0, 0, 0],   // property /p
    [1, 9, 10, 2, 0, 0, 0, 0, 0, 34, 43, 34, 35, 0, 0, 0],  // node /c
    [2, 10, 12, 4, 0, 0, 0, 0, 0, 38, 40, 38, 39, 0, 0, 0], // property /c/q
    [3, 0, 16, 2, 0, 0, 0, 0, 0, 44, 60, 44, 60, 0, 0, 0],  // deleted node /c
];

/// The description.
///
/// ```
/// let description = definition_log::sample::description();
/// assert_eq!((description.words().len(), description.text().len()), (18 * 8, 63));
/// ```
#[must_use]
pub fn description() -> Description<'static> {
    Description::new(DESCRIBED.as_flattened(), SOURCE)
}

/// The two files that the description may be taken to be run together from: the last line starts the
/// second one.
///
/// ```
/// use definition_log::sample;
///
/// let files = sample::files();
/// let lowered = sample::description().in_files(&files).lower()?;
/// for definition in lowered.log().definitions() {
///     let path = String::from_utf8_lossy(definition.path);
///     println!("{} \"{path}\" in {}", definition.kind, files.located(&definition.span));
/// }
/// # Ok::<(), definition_log::LowerError>(())
/// ```
#[must_use]
pub fn files() -> Files {
    Files::new(&[0, 27]).expect("27 is above 0").named(["base.dts", "depot.dts"])
}

/// The log.
///
/// ```
/// let log = definition_log::sample::log();
/// assert_eq!((log.words().len(), log.bytes().len()), (11 * 16, 18));
/// ```
#[must_use]
pub fn log() -> Log<'static> {
    Log::new(RECORDS.as_flattened(), BYTES)
}
