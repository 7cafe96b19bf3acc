//! A definition log, made and read: lowering, which makes it of a description, and queries: what of it
//! is live, what a path's history is, and whether a node is there.
//!
//! A definition log has what a devicetree source defines: its nodes, properties, deletions and
//! directives, in order, with labels and diagnostics. A [`Description`] is that source as records, which
//! a parser writes or, for tests and small things, a [`Tree`]; lowering it gives the [`Log`]. Its
//! expressions are signed, or unsigned at another [`Level`]. A source that is run together from several
//! [`Files`] gives each definition, binding, extension and diagnostic the number of its file. A bytestring
//! that holds a [`BoxNumber`] is read as one.
//!
//! A log lies in words of 32 bits, 16 to a record, and in bytes, where the texts are, and a description
//! in words, 8 to a record, and its text; docs/01-scope.md ("01") has the layout, and
//! `include/definition_log.h` tells it in short.
//!
//! Lowering and the answers come from a library that is proved: for all words and bytes that are lent,
//! also broken ones, it answers as 01 says, reads nothing outside of them, writes only the buffers that
//! it is to write, and ends. What is not proved is this wrapper, which reads records by itself. A live
//! list takes up to about 1.2 MB of stack, lowering up to about 1.5 MB, a history up to about 600 KB,
//! `contains_node` up to about 350 KB.
//!
//! ```
//! use definition_log::sample;
//!
//! let lowered = sample::description().lower()?;
//! let log = lowered.log();
//! for record in log.iter_live_defs_under("/")? {
//!     let definition = log.definition(record).expect("lists have definitions");
//!     println!("{} {}", definition.kind, String::from_utf8_lossy(definition.path));
//! }
//! for diagnostic in log.diagnostics().chain(log.post_diagnostics()) {
//!     println!("{diagnostic} at {:?}", diagnostic.span);
//! }
//! assert_eq!(log.history("/c/q")?.len(), 2, "defined, then gone with its node");
//! assert!(log.contains_node("/b")?);
//! # Ok::<(), Box<dyn std::error::Error>>(())
//! ```
//!
//! # How to build
//!
//! `rt lib` in the folder crates/definition_log_c makes the library, and this crate
//! links it. It may lie elsewhere: `DEFINITION_LOG_LIB` then has its path.

#![deny(missing_docs)]
#![deny(clippy::undocumented_unsafe_blocks)]

mod box_number;
mod calls;
mod diagnostic;
mod error;
mod files;
mod lower;
mod lower_error;
mod read;
pub mod sample;
mod tree;
mod value;

pub use box_number::{BoxError, BoxNumber};
pub use diagnostic::Diagnostic;
pub use error::QueryError;
pub use files::{Files, FilesError};
pub use lower::{Description, Level, OwnedLog};
pub use lower_error::LowerError;
pub use read::{Binding, Definition, Extension, Kind};
pub use tree::{Directive, Infix, InputKind, OwnedDescription, Prefix, Tree};
pub use value::{Cell, Target, Value};

/// How many answers a list has room for at first, where the caller lends none.
const FIRST_ROOM: usize = 64;

/// A definition log that someone holds: its words and its bytes. It may be broken; each query tests
/// it first.
///
/// ```
/// use definition_log::Log;
///
/// // Record 0 alone is an empty log.
/// let log = Log::new(&[0; 16], &[]);
/// assert_eq!(log.iter_live_defs_under("")?, []);
/// # Ok::<(), definition_log::QueryError>(())
/// ```
#[derive(Clone, Copy, Debug)]
pub struct Log<'a> {
    words: &'a [u32],
    bytes: &'a [u8],
}

/// Queries. Paths are `&str` or bytes.
impl<'a> Log<'a> {
    /// The log in these words and bytes. The buffers may be larger than the log.
    ///
    /// ```
    /// use definition_log::{Log, sample};
    ///
    /// let mut words = sample::log().words().to_vec();
    /// words.extend([0; 160]);
    /// let log = Log::new(&words, sample::log().bytes());
    /// assert!(log.contains_node("/b")?);
    /// # Ok::<(), definition_log::QueryError>(())
    /// ```
    #[must_use]
    pub const fn new(words: &'a [u32], bytes: &'a [u8]) -> Log<'a> {
        Log { words, bytes }
    }

    /// Its words.
    ///
    /// ```
    /// assert_eq!(definition_log::sample::log().words()[0], 11, "records used");
    /// ```
    #[must_use]
    pub const fn words(&self) -> &'a [u32] {
        self.words
    }

    /// Its bytes.
    ///
    /// ```
    /// assert!(definition_log::sample::log().bytes().starts_with(b"//b"));
    /// ```
    #[must_use]
    pub const fn bytes(&self) -> &'a [u8] {
        self.bytes
    }

    /// The definitions that are live at or under a base, latest first, by their record numbers: those
    /// that are no deletion, have no later deleted node at or above their path and, of properties, no
    /// later property or deleted property with their path.
    ///
    /// # Errors
    ///
    /// [`QueryError::BrokenLog`] and [`QueryError::BadPath`].
    ///
    /// ```
    /// let log = definition_log::sample::log();
    /// assert_eq!(log.iter_live_defs_under("/")?, [7, 6, 3, 2]);
    /// assert_eq!(log.iter_live_defs_under("")?, [7, 6, 3, 2, 1], "the version's path is empty");
    /// # Ok::<(), definition_log::QueryError>(())
    /// ```
    pub fn iter_live_defs_under(&self, base: impl AsRef<[u8]>) -> Result<Vec<u32>, QueryError> {
        collected(|list| self.iter_live_defs_under_into(&base, list))
    }

    /// [`iter_live_defs_under`](Log::iter_live_defs_under) into a list that the caller lends: how many
    /// answers it got, from its start. The rest of it is as it was, and after an error all of it.
    ///
    /// # Errors
    ///
    /// All of [`QueryError`].
    ///
    /// ```
    /// let mut list = [0; 5];
    /// let count = definition_log::sample::log().iter_live_defs_under_into("/b", &mut list)?;
    /// assert_eq!((count, list), (1, [3, 0, 0, 0, 0]));
    /// # Ok::<(), definition_log::QueryError>(())
    /// ```
    pub fn iter_live_defs_under_into(
        &self,
        base: impl AsRef<[u8]>,
        list: &mut [u32],
    ) -> Result<usize, QueryError> {
        counted(calls::iter_live_defs_under(self.words, self.bytes, base.as_ref(), list))
    }

    /// The history of a path, earliest first, by record numbers: its definitions and deletions, and
    /// each deletion of a node above it by which it went.
    ///
    /// # Errors
    ///
    /// [`QueryError::BrokenLog`] and [`QueryError::BadPath`].
    ///
    /// ```
    /// let log = definition_log::sample::log();
    /// assert_eq!(log.history("/")?, [2, 6]);
    /// assert_eq!(log.history("/c/q")?, [9, 10]);
    /// assert_eq!(log.history("/nowhere")?, []);
    /// # Ok::<(), definition_log::QueryError>(())
    /// ```
    pub fn history(&self, path: impl AsRef<[u8]>) -> Result<Vec<u32>, QueryError> {
        collected(|list| self.history_into(&path, list))
    }

    /// [`history`](Log::history) into a list that the caller lends: how many answers it got, from its
    /// start. The rest of it is as it was, and after an error all of it.
    ///
    /// # Errors
    ///
    /// All of [`QueryError`].
    ///
    /// ```
    /// let mut list = [0; 3];
    /// let count = definition_log::sample::log().history_into("/c", &mut list)?;
    /// assert_eq!((count, list), (2, [8, 10, 0]));
    /// # Ok::<(), definition_log::QueryError>(())
    /// ```
    pub fn history_into(&self, path: impl AsRef<[u8]>, list: &mut [u32]) -> Result<usize, QueryError> {
        counted(calls::history(self.words, self.bytes, path.as_ref(), list))
    }

    /// Whether a node is live at a path.
    ///
    /// # Errors
    ///
    /// [`QueryError::BrokenLog`] and [`QueryError::BadPath`].
    ///
    /// ```
    /// let log = definition_log::sample::log();
    /// assert!(log.contains_node("/b")?);
    /// assert!(!log.contains_node("/c")?, "it was deleted");
    /// assert!(!log.contains_node("/p")?, "a property is no node");
    /// # Ok::<(), definition_log::QueryError>(())
    /// ```
    pub fn contains_node(&self, path: impl AsRef<[u8]>) -> Result<bool, QueryError> {
        let returned = QueryError::or_returned(calls::contains_node(self.words, self.bytes, path.as_ref()))?;
        Ok(returned == 1)
    }
}

/// The count that a query of a list returns.
fn counted(answer: calls::DlAnswer) -> Result<usize, QueryError> {
    Ok(QueryError::or_returned(answer)? as usize)
}

/// All answers of a query, which is asked again where the first list is too short.
fn collected(ask: impl Fn(&mut [u32]) -> Result<usize, QueryError>) -> Result<Vec<u32>, QueryError> {
    let mut list = vec![0; FIRST_ROOM];
    let count = match ask(&mut list) {
        Err(QueryError::ListTooShort { needed }) => {
            list.resize(needed, 0);
            ask(&mut list)?
        }
        answered => answered?,
    };
    list.truncate(count);
    Ok(list)
}
