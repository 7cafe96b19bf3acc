//! The files that a source is run together from.

use std::{error::Error, fmt, ops::Range};

use crate::LowerError;

/// The most files of a source.
const MOST_FILES: usize = 16;

/// The files that a source is run together from, by their starts in it: up to 16, numbered from 0. Spans
/// are places in the whole, and this finds the file and the place there.
///
/// ```
/// use definition_log::{Files, sample};
///
/// let texts = ["/dts-v1/;\n/ { a: b { }; };\n", "/ { p; c { q; }; /delete-node/ c; };"];
/// assert_eq!(texts.concat().as_bytes(), sample::description().text());
/// let files = Files::from_lengths(texts.map(str::len))?.named(["base.dts", "depot.dts"]);
///
/// let lowered = sample::description().in_files(&files).lower()?;
/// let p = lowered.log().definitions().find(|definition| definition.path == b"/p").expect("p");
/// assert_eq!((p.file, files.name(p.file)), (1, Some("depot.dts")));
/// assert_eq!((p.span.clone(), files.located(&p.span)), (31..33, "depot.dts, 4-6".to_owned()));
/// # Ok::<(), definition_log::LowerError>(())
/// ```
#[derive(Clone, Debug, PartialEq, Eq, Hash)]
pub struct Files {
    starts: Vec<u32>,
    names: Vec<String>,
}

impl Files {
    /// The files that start at these places of the source.
    ///
    /// # Errors
    ///
    /// [`FilesError`], with the rule that the list breaks.
    ///
    /// ```
    /// use definition_log::{Files, FilesError};
    ///
    /// assert_eq!(Files::new(&[0, 27])?.starts(), [0, 27]);
    /// assert_eq!(Files::new(&[27]), Err(FilesError::FirstNotZero { start: 27 }));
    /// # Ok::<(), FilesError>(())
    /// ```
    pub fn new(starts: &[u32]) -> Result<Files, FilesError> {
        match FilesError::of(starts) {
            Some(broken) => Err(broken),
            None => Ok(Files { starts: starts.to_vec(), names: Vec::new() }),
        }
    }

    /// The files of these lengths, in bytes, each right behind the one before it. An empty file is the last
    /// one or is left out: the next one would not start behind it.
    ///
    /// # Errors
    ///
    /// [`FilesError`], with the rule that their starts break.
    ///
    /// ```
    /// use definition_log::{Files, FilesError};
    ///
    /// assert_eq!(Files::from_lengths([27, 36, 5])?.starts(), [0, 27, 63]);
    /// let empty = Files::from_lengths([27, 0, 36]);
    /// assert_eq!(empty, Err(FilesError::NotRising { entry: 2, before: 27, start: 27 }));
    /// # Ok::<(), FilesError>(())
    /// ```
    pub fn from_lengths(lengths: impl IntoIterator<Item = usize>) -> Result<Files, FilesError> {
        let mut starts = Vec::new();
        let mut next = 0_usize;
        for length in lengths {
            starts.push(u32::try_from(next).map_err(|_| FilesError::TooLong { entry: starts.len() })?);
            next = next.saturating_add(length);
        }
        Files::new(&starts)
    }

    /// A source that is one file.
    ///
    /// ```
    /// use definition_log::Files;
    ///
    /// assert_eq!(Files::one().starts(), [0]);
    /// assert_eq!(Files::default(), Files::one());
    /// ```
    #[must_use]
    pub fn one() -> Files {
        Files { starts: vec![0], names: Vec::new() }
    }

    /// With these names, from the first file on. A file that gets none is called by its number.
    ///
    /// ```
    /// use definition_log::Files;
    ///
    /// let files = Files::new(&[0, 27])?.named(["base.dts"]);
    /// assert_eq!((files.name(0), files.name(1)), (Some("base.dts"), None));
    /// assert_eq!(files.located(&(27..29)), "file 1, 0-2");
    /// # Ok::<(), definition_log::FilesError>(())
    /// ```
    #[must_use]
    pub fn named(self, names: impl IntoIterator<Item = impl Into<String>>) -> Files {
        let names = names.into_iter().take(self.starts.len()).map(Into::into).collect();
        Files { names, ..self }
    }

    /// Where they start.
    ///
    /// ```
    /// assert_eq!(definition_log::Files::new(&[0, 27])?.starts(), [0, 27]);
    /// # Ok::<(), definition_log::FilesError>(())
    /// ```
    #[must_use]
    pub const fn starts(&self) -> &[u32] {
        self.starts.as_slice()
    }

    /// The name of the file of this number, if it was given one.
    ///
    /// ```
    /// assert_eq!(definition_log::Files::one().named(["rack.dts"]).name(0), Some("rack.dts"));
    /// ```
    #[must_use]
    pub fn name(&self, file: usize) -> Option<&str> {
        self.names.get(file).map(String::as_str)
    }

    /// The number of the file that a place of the source lies in, and the place in that file. It is the
    /// last file that does not start above the place.
    ///
    /// ```
    /// let files = definition_log::Files::new(&[0, 27])?;
    /// assert_eq!([26, 27, 31].map(|place| files.locate(place)), [(0, 26), (1, 0), (1, 4)]);
    /// # Ok::<(), definition_log::FilesError>(())
    /// ```
    #[must_use]
    pub fn locate(&self, place: u32) -> (usize, u32) {
        // The first start is 0, so there is one that is not above the place.
        let file = self.starts.partition_point(|start| *start <= place) - 1;
        (file, place - self.starts[file])
    }

    /// A span in words: the file that it lies in and its places there, or both files where it goes on into
    /// another one.
    ///
    /// ```
    /// let files = definition_log::Files::new(&[0, 27])?;
    /// assert_eq!(files.located(&(31..33)), "file 1, 4-6");
    /// assert_eq!(files.located(&(14..27)), "file 0, 14-27");
    /// assert_eq!(files.located(&(14..30)), "file 0, 14 to file 1, 3");
    /// # Ok::<(), definition_log::FilesError>(())
    /// ```
    #[must_use]
    pub fn located(&self, span: &Range<u32>) -> String {
        let (first, start) = self.locate(span.start);
        let (last, _) = self.locate(span.end.saturating_sub(1).max(span.start));
        let end = span.end.saturating_sub(self.starts[last]);
        if first == last {
            format!("{}, {start}-{end}", self.called(first))
        } else {
            format!("{}, {start} to {}, {end}", self.called(first), self.called(last))
        }
    }

    /// What a file is called: its name, or its number.
    fn called(&self, file: usize) -> String {
        self.name(file).map_or_else(|| format!("file {file}"), str::to_owned)
    }
}

impl Default for Files {
    fn default() -> Files {
        Files::one()
    }
}

/// Why a list of starts is none: the first rule that it breaks. The library refuses such lists with number
/// 14 of 02, so lowering never sees one.
///
/// ```
/// use definition_log::Files;
///
/// assert_eq!(
///     Files::new(&[0, 27, 20]).unwrap_err().to_string(),
///     "these are no starts of files (number 14): entry 2 is 20, and the one before it 27; each file must \
///      start behind the one before it, so leave out one that is empty"
/// );
/// ```
#[derive(Clone, Copy, Debug, PartialEq, Eq, Hash)]
pub enum FilesError {
    /// There is no entry.
    ///
    /// ```
    /// use definition_log::{Files, FilesError};
    ///
    /// assert_eq!(Files::new(&[]), Err(FilesError::Empty));
    /// ```
    Empty,
    /// There are more than 16 entries.
    ///
    /// ```
    /// use definition_log::{Files, FilesError};
    ///
    /// assert!(Files::from_lengths([5; 16]).is_ok());
    /// assert_eq!(Files::from_lengths([5; 17]), Err(FilesError::TooMany { count: 17 }));
    /// ```
    TooMany {
        /// How many there are.
        count: usize,
    },
    /// Entry 0 is not 0.
    ///
    /// ```
    /// use definition_log::{Files, FilesError};
    ///
    /// assert_eq!(Files::new(&[1, 27]), Err(FilesError::FirstNotZero { start: 1 }));
    /// ```
    FirstNotZero {
        /// What it is.
        start: u32,
    },
    /// An entry is not above the one before it.
    ///
    /// ```
    /// use definition_log::{Files, FilesError};
    ///
    /// let twice = Files::new(&[0, 27, 27]);
    /// assert_eq!(twice, Err(FilesError::NotRising { entry: 2, before: 27, start: 27 }));
    /// ```
    NotRising {
        /// Which entry, from 0; the first such.
        entry: usize,
        /// The one before it.
        before: u32,
        /// What it is.
        start: u32,
    },
    /// Of [`Files::from_lengths`]: an entry would be above 2^32 - 1, the last place that there is.
    ///
    /// ```
    /// use definition_log::{Files, FilesError};
    ///
    /// let four_gigabytes = 1 << 32;
    /// assert!(Files::from_lengths([four_gigabytes - 1, 1]).is_ok());
    /// assert_eq!(Files::from_lengths([four_gigabytes, 1]), Err(FilesError::TooLong { entry: 1 }));
    /// ```
    TooLong {
        /// Which entry, from 0; the first such.
        entry: usize,
    },
}

impl FilesError {
    /// The first rule that a list of starts breaks, if it breaks one.
    pub(crate) fn of(starts: &[u32]) -> Option<FilesError> {
        match *starts {
            [] => Some(FilesError::Empty),
            _ if MOST_FILES < starts.len() => Some(FilesError::TooMany { count: starts.len() }),
            [start, ..] if start != 0 => Some(FilesError::FirstNotZero { start }),
            _ => (1..starts.len()).find(|&entry| starts[entry] <= starts[entry - 1]).map(|entry| {
                FilesError::NotRising { entry, before: starts[entry - 1], start: starts[entry] }
            }),
        }
    }
}

impl fmt::Display for FilesError {
    fn fmt(&self, f: &mut fmt::Formatter<'_>) -> fmt::Result {
        f.write_str("these are no starts of files (number 14): ")?;
        match *self {
            FilesError::Empty => f.write_str("there is none; a source that is one file starts at 0"),
            FilesError::TooMany { count } => {
                write!(f, "there are {count}, and may be 16; take files that belong together as one")
            }
            FilesError::FirstNotZero { start } => {
                write!(f, "entry 0 is {start}; the first file must start at 0, where the source does")
            }
            FilesError::NotRising { entry, before, start } => write!(
                f,
                "entry {entry} is {start}, and the one before it {before}; each file must start behind the one \
                 before it, so leave out one that is empty"
            ),
            FilesError::TooLong { entry } => write!(
                f,
                "entry {entry} would be above 4,294,967,295, the last place that there is; lower the files in \
                 parts"
            ),
        }
    }
}

impl Error for FilesError {}

impl From<FilesError> for LowerError {
    /// Number 14's error.
    ///
    /// ```
    /// use definition_log::{Files, FilesError, LowerError, OwnedLog, sample};
    ///
    /// fn lowered(starts: &[u32]) -> Result<OwnedLog, LowerError> {
    ///     sample::description().in_files(&Files::new(starts)?).lower()
    /// }
    /// assert!(lowered(&[0, 27]).is_ok());
    /// assert_eq!(lowered(&[]).unwrap_err(), LowerError::BadFiles { why: FilesError::Empty });
    /// ```
    fn from(why: FilesError) -> LowerError {
        LowerError::BadFiles { why }
    }
}

#[cfg(test)]
mod tests {
    use super::*;
    use crate::{calls, sample};

    /// What the buffers hold before a call.
    const UNTOUCHED: u32 = 77;
    const UNTOUCHED_BYTE: u8 = 77;

    /// Number and returned of the sample with this W in record 1, lowered with any starts at any level into
    /// buffers for so many records. After a refusal other than 7 they are as they were.
    fn answer(starts: &[u32], level: u32, w: u32, room: usize) -> (u32, u32) {
        let described = sample::description();
        let mut words = described.words().to_vec();
        words[8 + 5] = w;
        let (mut out, mut bytes) = (vec![UNTOUCHED; room * 16], vec![UNTOUCHED_BYTE; 18]);
        let answer = calls::lower(&words, described.text(), level, starts, &mut out, &mut bytes);
        if ![0, 7].contains(&answer.number) {
            assert!(out.iter().all(|word| *word == UNTOUCHED));
            assert!(bytes.iter().all(|byte| *byte == UNTOUCHED_BYTE));
        }
        (answer.number, answer.returned)
    }

    #[test]
    fn the_library_takes_the_same_lists() {
        let rising: Vec<u32> = (0..17).collect();
        let good: [&[u32]; 6] = [&[0], &[0, 1], &[0, 5, 6], &[0, u32::MAX], &rising[..15], &rising[..16]];
        for starts in good {
            assert_eq!(Files::new(starts).unwrap().starts(), starts);
            assert_eq!(answer(starts, 1, 1, 11), (0, 0), "{starts:?}");
        }
        let not_rising = |entry, before, start| FilesError::NotRising { entry, before, start };
        let bad: [(&[u32], FilesError); 9] = [
            (&[], FilesError::Empty),
            (&rising, FilesError::TooMany { count: 17 }),
            (&[5; 100], FilesError::TooMany { count: 100 }),
            (&[1], FilesError::FirstNotZero { start: 1 }),
            (&[5, 0], FilesError::FirstNotZero { start: 5 }),
            (&[0, 0], not_rising(1, 0, 0)),
            (&[0, 5, 5], not_rising(2, 5, 5)),
            (&[0, 5, 4, 4], not_rising(2, 5, 4)),
            (&[0, u32::MAX, 0], not_rising(2, u32::MAX, 0)),
        ];
        for (starts, why) in bad {
            assert_eq!(Files::new(starts), Err(why));
            assert_eq!(answer(starts, 1, 1, 11), (14, 0), "{starts:?}");
        }
    }

    #[test]
    fn the_list_is_tried_behind_the_description_and_before_room() {
        let bad = &[5];
        assert_eq!(answer(bad, 3, 0, 0), (18, 0));
        assert_eq!(answer(bad, 1, 0, 0), (4, 1), "a directive of no sort, in record 1");
        assert_eq!(answer(bad, 1, 1, 0), (14, 0));
        assert_eq!(answer(&[0], 1, 1, 0), (7, 0));
    }

    #[test]
    fn lengths_do_not_wrap() {
        let most = u32::MAX as usize;
        assert_eq!(Files::from_lengths([most, 1]).unwrap().starts(), [0, u32::MAX]);
        assert_eq!(Files::from_lengths([most, 1, 1]), Err(FilesError::TooLong { entry: 2 }));
        assert_eq!(Files::from_lengths([usize::MAX, usize::MAX, 1]), Err(FilesError::TooLong { entry: 1 }));
        assert_eq!(Files::from_lengths([]), Err(FilesError::Empty));
        assert_eq!(Files::from_lengths([7, 0]).unwrap().starts(), [0, 7], "the last one may be empty");
        assert_eq!(Files::from_lengths([5; 16]).unwrap().starts().len(), 16);
    }

    #[test]
    fn spans_are_told_by_their_files() {
        let files = Files::new(&[0, 10, 20]).unwrap().named(["a", "b"]);
        let told = |span: Range<u32>| files.located(&span);
        assert_eq!(told(9..10), "a, 9-10", "up to its end");
        assert_eq!(told(10..10), "b, 0-0");
        assert_eq!(told(9..11), "a, 9 to b, 1");
        assert_eq!(told(9..20), "a, 9 to b, 10");
        assert_eq!(told(0..21), "a, 0 to file 2, 1", "over all three");
        assert_eq!(told(u32::MAX..u32::MAX), "file 2, 4294967275-4294967275");
        let broken = Range { start: 25, end: 3 };
        assert_eq!(files.located(&broken), "file 2, 5-0", "a span of a broken log");
        assert_eq!(files.clone().named(["a", "b", "c", "d"]).name(3), None, "a name too many");
    }

    #[test]
    fn words_say_which_rule_is_broken() {
        let told = |starts: &[u32]| Files::new(starts).unwrap_err().to_string();
        assert!(told(&[]).contains("there is none; a source that is one file starts at 0"));
        assert!(told(&[0; 17]).contains("there are 17, and may be 16"));
        assert!(told(&[3, 4]).contains("entry 0 is 3"));
        assert!(told(&[0, 4, 9, 9]).contains("entry 3 is 9, and the one before it 9"));
        let long = FilesError::TooLong { entry: 2 }.to_string();
        assert!(long.contains("entry 2 would be above 4,294,967,295"));
    }
}
