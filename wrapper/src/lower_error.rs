//! Why a description is not lowered.

use std::{error::Error, fmt};

use crate::{FilesError, calls::DlAnswer, read::MOST_RECORDS};

/// Why a description is not lowered: number 18 of 02, then rows 1 to 6 of 01's table, 14 of 02, and row 7,
/// tried in this order, each over all records before the next. A record that is named is the lowest one at
/// fault.
///
/// After all but [`NoRoom`](LowerError::NoRoom) the buffers are as they were; after that, zeros.
///
/// ```
/// use definition_log::{Description, LowerError};
///
/// // A description has a record 0 at least, and this has half of it.
/// let refused = Description::new(&[0; 4], b"").lower().unwrap_err();
/// assert_eq!(refused, LowerError::WrongSize { words: 4, text: 0 });
/// assert_eq!(
///     refused.to_string(),
///     "the description has a wrong size (number 1): it has 4 words, and must have 8 for each of 1 to 2,048 \
///      records; lend whole records, record 0 among them"
/// );
/// ```
#[derive(Clone, Copy, Debug, PartialEq, Eq, Hash)]
pub enum LowerError {
    /// The words are not 8 times 1 to 2,048, or the text has over 65,536 bytes.
    ///
    /// ```
    /// use definition_log::{Description, LowerError};
    ///
    /// let refused = Description::new(&[0; 8], &[0; 65_537]).lower().unwrap_err();
    /// assert_eq!(refused, LowerError::WrongSize { words: 8, text: 65_537 });
    /// ```
    WrongSize {
        /// How many words were lent.
        words: usize,
        /// How many bytes the text has.
        text: usize,
    },
    /// A link does not lead above its own record, leads past the last one, or leads to one that is
    /// already linked.
    ///
    /// ```
    /// use definition_log::{Description, LowerError};
    ///
    /// // Record 0 alone, whose child would be record 1.
    /// let refused = Description::new(&[0, 0, 1, 0, 0, 0, 0, 0], b"").lower().unwrap_err();
    /// assert_eq!(refused, LowerError::BadLink { record: 0 });
    /// ```
    BadLink {
        /// The record with the link.
        record: u32,
    },
    /// A text does not end inside the text that is lent.
    ///
    /// ```
    /// use definition_log::{Description, LowerError, sample};
    ///
    /// let whole = sample::description();
    /// let cut = Description::new(whole.words(), &whole.text()[..17]);
    /// assert_eq!(cut.lower().unwrap_err(), LowerError::BadText { record: 7 }, "b starts at 17");
    /// ```
    BadText {
        /// The record with the text.
        record: u32,
    },
    /// A kind is unfit for its place or has children where it has none, W is outside its list, or a
    /// span ends before its start; of record 0, a word other than its child is not zero.
    ///
    /// ```
    /// use definition_log::{LowerError, OwnedDescription, Tree};
    ///
    /// let name = OwnedDescription::of(&[Tree::name("a")]);
    /// let refused = name.description().lower().unwrap_err();
    /// assert_eq!(refused, LowerError::UnfitRecord { record: 1 }, "a name is no item");
    /// ```
    UnfitRecord {
        /// The record that does not fit.
        record: u32,
    },
    /// A name is empty or holds "/", or a reference by name holds "/".
    ///
    /// ```
    /// use definition_log::{LowerError, OwnedDescription, Tree};
    ///
    /// let slash = OwnedDescription::of(&[Tree::node([Tree::name("a/b")], [])]);
    /// assert_eq!(slash.description().lower().unwrap_err(), LowerError::BadName { record: 2 });
    /// ```
    BadName {
        /// The record with the name.
        record: u32,
    },
    /// More than 64 child, item or value links lead from record 0 to a record.
    ///
    /// ```
    /// use definition_log::{LowerError, OwnedDescription, Tree};
    ///
    /// let nested = (0..64).fold(Tree::node([], []), |inner, _| Tree::node([], [inner]));
    /// let refused = OwnedDescription::of(&[nested]).description().lower().unwrap_err();
    /// assert_eq!(refused, LowerError::TooDeep { record: 65 });
    /// ```
    TooDeep {
        /// The record that lies too deep.
        record: u32,
    },
    /// The log does not fit the buffers, or needs more than 65,536 records or 2^24 bytes.
    ///
    /// ```
    /// use definition_log::{LowerError, sample};
    ///
    /// let refused = sample::description().lower_into(&mut [0; 10 * 16], &mut [0; 18]).unwrap_err();
    /// assert_eq!(refused, LowerError::NoRoom { records: 10, bytes: 18 }, "it needs 11 and 18");
    /// ```
    NoRoom {
        /// How many records the buffer of words holds.
        records: usize,
        /// How many bytes the other buffer holds.
        bytes: usize,
    },
    /// Starts that are those of no [`Files`](crate::Files): there is none or more than 16, the first is not
    /// 0, or one is not above the one before it.
    ///
    /// ```
    /// use definition_log::{Files, FilesError, LowerError};
    ///
    /// let refused = LowerError::from(Files::new(&[5]).unwrap_err());
    /// assert_eq!(refused, LowerError::BadFiles { why: FilesError::FirstNotZero { start: 5 } });
    /// assert_eq!(
    ///     refused.to_string(),
    ///     "these are no starts of files (number 14): entry 0 is 5; the first file must start at 0, where the \
    ///      source does"
    /// );
    /// ```
    BadFiles {
        /// The rule that they break.
        why: FilesError,
    },
    /// A number that is no [`Level`](crate::Level): it is neither 1 nor 2.
    ///
    /// ```
    /// use definition_log::{Level, LowerError};
    ///
    /// let refused = Level::try_from(3).unwrap_err();
    /// assert_eq!(refused, LowerError::NoLevel { level: 3 });
    /// assert_eq!(
    ///     refused.to_string(),
    ///     "3 is no level (number 18): it must be 1, signed expressions, or 2, unsigned ones"
    /// );
    /// ```
    NoLevel {
        /// The number that was given.
        level: u32,
    },
}

/// The most bytes of a log.
pub(crate) const MOST_BYTES: usize = 1 << 24;

/// The most words of a description.
const MOST_INPUT_WORDS: usize = 8 * 2048;

impl LowerError {
    /// 01's number, 1 to 7, or 02's, 14 or 18.
    ///
    /// ```
    /// use definition_log::{FilesError, LowerError};
    ///
    /// assert_eq!(LowerError::BadLink { record: 3 }.number(), 2);
    /// assert_eq!(LowerError::NoRoom { records: 0, bytes: 0 }.number(), 7);
    /// assert_eq!(LowerError::BadFiles { why: FilesError::Empty }.number(), 14);
    /// assert_eq!(LowerError::NoLevel { level: 0 }.number(), 18);
    /// ```
    #[must_use]
    pub const fn number(self) -> u32 {
        match self {
            LowerError::WrongSize { .. } => 1,
            LowerError::BadLink { .. } => 2,
            LowerError::BadText { .. } => 3,
            LowerError::UnfitRecord { .. } => 4,
            LowerError::BadName { .. } => 5,
            LowerError::TooDeep { .. } => 6,
            LowerError::NoRoom { .. } => 7,
            LowerError::BadFiles { .. } => 14,
            LowerError::NoLevel { .. } => 18,
        }
    }

    /// Nothing with number 0, or the error that another number stands for; `input` has the words and
    /// bytes of the description, `level` its level's number, `starts` those of its files, and `room` the
    /// records and bytes of the buffers.
    pub(crate) fn or_lowered(
        answer: DlAnswer,
        input: (usize, usize),
        level: u32,
        starts: &[u32],
        room: (usize, usize),
    ) -> Result<(), LowerError> {
        let record = answer.returned;
        match answer.number {
            0 => Ok(()),
            1 => Err(LowerError::WrongSize { words: input.0, text: input.1 }),
            2 => Err(LowerError::BadLink { record }),
            3 => Err(LowerError::BadText { record }),
            4 => Err(LowerError::UnfitRecord { record }),
            5 => Err(LowerError::BadName { record }),
            6 => Err(LowerError::TooDeep { record }),
            7 => Err(LowerError::NoRoom { records: room.0, bytes: room.1 }),
            14 => Err(FilesError::of(starts).expect("only starts that break a rule are refused").into()),
            18 => Err(LowerError::NoLevel { level }),
            number => unreachable!("the library answers 0 to 7, 14 and 18, and this is {number}"),
        }
    }
}

impl fmt::Display for LowerError {
    fn fmt(&self, f: &mut fmt::Formatter<'_>) -> fmt::Result {
        match *self {
            LowerError::WrongSize { words, .. }
                if words % 8 != 0 || words == 0 || MOST_INPUT_WORDS < words =>
            {
                write!(
                    f,
                    "the description has a wrong size (number 1): it has {words} words, and must have 8 for each \
                     of 1 to 2,048 records; lend whole records, record 0 among them"
                )?;
                if MOST_INPUT_WORDS < words { f.write_str(", and lower a larger one in parts") } else { Ok(()) }
            }
            LowerError::WrongSize { text, .. } => write!(
                f,
                "the description has a wrong size (number 1): its text has {text} bytes, and may have 65,536; \
                 leave out what no record needs, or lower it in parts"
            ),
            LowerError::BadLink { record } => write!(
                f,
                "record {record} has a bad link (number 2), and no record below it has: its next, its child or, \
                 of a node or property, its W leads to itself or below, past the last record, or to a record that \
                 is linked already; number the records so that links lead upwards, and link each record once"
            ),
            LowerError::BadText { record } => write!(
                f,
                "the text of record {record} is not there (number 3): its start and length lead behind the end of \
                 the text; lend all of the text, or set both to 0 where there is none"
            ),
            LowerError::UnfitRecord { record: 0 } => f.write_str(
                "record 0 is unfit (number 4): a word of it other than its child is not zero; record 0 only has \
                 the first top item as its child",
            ),
            LowerError::UnfitRecord { record } => write!(
                f,
                "record {record} is unfit (number 4): its kind does not fit its chain, it has a child where its \
                 kind has none, its W is none of its kind's, or its span ends before it starts; write that record \
                 anew, or link it from where its kind fits"
            ),
            LowerError::BadName { record } => write!(
                f,
                "the name in record {record} is bad (number 5): a name must not be empty, and neither a name nor a \
                 reference by name may hold \"/\"; leave out the record of a name that is missing, and give a \
                 reference to a path as a raw one"
            ),
            LowerError::TooDeep { record } => write!(
                f,
                "record {record} lies too deep (number 6): more than 64 child, item or value links lead to it from \
                 record 0; write what is so deep in a node of its own, by a reference to the node around it"
            ),
            LowerError::NoRoom { records, bytes } if MOST_RECORDS <= records && MOST_BYTES <= bytes => f.write_str(
                "the log is too large (number 7): it needs more than 65,536 records or 16,777,216 bytes, which no \
                 buffer makes up for; lower the description in parts",
            ),
            LowerError::NoRoom { records, bytes } => write!(
                f,
                "the log does not fit (number 7): there was room for {records} records and {bytes} bytes; lend \
                 more of both, up to 65,536 records of 16 words and 16,777,216 bytes"
            ),
            LowerError::BadFiles { why } => why.fmt(f),
            LowerError::NoLevel { level } => write!(
                f,
                "{level} is no level (number 18): it must be 1, signed expressions, or 2, unsigned ones"
            ),
        }
    }
}

impl Error for LowerError {}

#[cfg(test)]
mod tests {
    use super::*;

    fn answer(number: u32, returned: u32) -> Result<(), LowerError> {
        LowerError::or_lowered(DlAnswer { number, returned }, (24, 5), 3, &[0, 4, 4], (2, 9))
    }

    #[test]
    fn each_number_is_its_error() {
        assert_eq!(answer(0, 0), Ok(()));
        assert_eq!(answer(1, 0), Err(LowerError::WrongSize { words: 24, text: 5 }));
        assert_eq!(answer(2, 5), Err(LowerError::BadLink { record: 5 }));
        assert_eq!(answer(3, 5), Err(LowerError::BadText { record: 5 }));
        assert_eq!(answer(4, 5), Err(LowerError::UnfitRecord { record: 5 }));
        assert_eq!(answer(5, 5), Err(LowerError::BadName { record: 5 }));
        assert_eq!(answer(6, 5), Err(LowerError::TooDeep { record: 5 }));
        assert_eq!(answer(7, 0), Err(LowerError::NoRoom { records: 2, bytes: 9 }));
        let why = FilesError::NotRising { entry: 2, before: 4, start: 4 };
        assert_eq!(answer(14, 0), Err(LowerError::BadFiles { why }));
        assert_eq!(answer(18, 0), Err(LowerError::NoLevel { level: 3 }));
        for number in (1..8).chain([14, 18]) {
            assert_eq!(answer(number, 0).unwrap_err().number(), number);
        }
    }

    #[test]
    #[should_panic(expected = "this is 8")]
    fn no_other_number_is_taken() {
        let _ = answer(8, 0);
    }

    #[test]
    fn words_say_where_and_what_to_do() {
        let errors = [
            LowerError::BadLink { record: 12 },
            LowerError::BadText { record: 12 },
            LowerError::UnfitRecord { record: 12 },
            LowerError::BadName { record: 12 },
            LowerError::TooDeep { record: 12 },
        ];
        for error in errors {
            let words = error.to_string();
            assert!(words.contains("record 12") && words.contains("; "), "{words}");
            assert!(words.contains(&format!("(number {})", error.number())), "{words}");
        }
        assert!(LowerError::UnfitRecord { record: 0 }.to_string().starts_with("record 0 is unfit"));
    }

    #[test]
    fn words_say_which_size_is_wrong() {
        let of = |words, text| LowerError::WrongSize { words, text }.to_string();
        assert!(of(0, 70_000).contains("it has 0 words"));
        assert!(of(12, 70_000).contains("it has 12 words"));
        assert!(of(16_392, 0).ends_with("in parts"));
        assert!(of(16_384, 70_000).contains("its text has 70000 bytes"));
    }

    #[test]
    fn words_say_whether_more_room_helps() {
        let of = |records, bytes| LowerError::NoRoom { records, bytes }.to_string();
        assert!(of(3, 9).contains("room for 3 records and 9 bytes; lend more"));
        assert!(of(65_536, 9).contains("lend more"));
        assert!(of(65_536, 1 << 24).contains("no buffer makes up for"));
    }
}
