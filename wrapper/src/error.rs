//! Why a query has no answer.

use std::{error::Error, fmt};

use crate::calls::DlAnswer;

/// Why a query has no answer: rows 8 to 10 of 01's table, tried in this order.
///
/// ```
/// use definition_log::{QueryError, sample};
///
/// let log = sample::log();
/// match log.history("/c/") {
///     Err(QueryError::BadPath) => {}
///     other => panic!("{other:?}"),
/// }
/// assert_eq!(
///     QueryError::ListTooShort { needed: 4 }.to_string(),
///     "the list is too short (number 10): there are 4 answers; lend a list of 4 places or more"
/// );
/// ```
#[derive(Clone, Copy, Debug, PartialEq, Eq, Hash)]
pub enum QueryError {
    /// The log breaks a rule for logs.
    ///
    /// ```
    /// use definition_log::{Log, QueryError, sample};
    ///
    /// // Without its last record, the log's record 9 has a link that leads out of it.
    /// let whole = sample::log();
    /// let cut = Log::new(&whole.words()[..160], whole.bytes());
    /// assert_eq!(cut.contains_node("/b"), Err(QueryError::BrokenLog { record: 9 }));
    /// ```
    BrokenLog {
        /// The lowest record at fault; 0 also where the count of words is wrong.
        record: u32,
    },
    /// The path is not empty, not "/", and not "/" before each of its nonempty components.
    ///
    /// ```
    /// use definition_log::{QueryError, sample};
    ///
    /// for path in ["b", "/b/", "//", "/b//c"] {
    ///     assert_eq!(sample::log().contains_node(path), Err(QueryError::BadPath));
    /// }
    /// ```
    BadPath,
    /// There are more answers than the list holds.
    ///
    /// ```
    /// use definition_log::{QueryError, sample};
    ///
    /// let mut list = [0; 3];
    /// let refused = sample::log().iter_live_defs_under_into("/", &mut list);
    /// assert_eq!(refused, Err(QueryError::ListTooShort { needed: 4 }));
    /// assert_eq!(list, [0; 3]);
    /// ```
    ListTooShort {
        /// How many answers there are.
        needed: usize,
    },
}

impl QueryError {
    /// 01's number: 8, 9 or 10.
    ///
    /// ```
    /// use definition_log::QueryError;
    ///
    /// assert_eq!(QueryError::BrokenLog { record: 3 }.number(), 8);
    /// assert_eq!(QueryError::BadPath.number(), 9);
    /// assert_eq!(QueryError::ListTooShort { needed: 1 }.number(), 10);
    /// ```
    #[must_use]
    pub const fn number(self) -> u32 {
        match self {
            QueryError::BrokenLog { .. } => 8,
            QueryError::BadPath => 9,
            QueryError::ListTooShort { .. } => 10,
        }
    }

    /// What is returned with number 0, or the error that another number stands for.
    pub(crate) fn or_returned(answer: DlAnswer) -> Result<u32, QueryError> {
        match answer.number {
            0 => Ok(answer.returned),
            8 => Err(QueryError::BrokenLog { record: answer.returned }),
            9 => Err(QueryError::BadPath),
            10 => Err(QueryError::ListTooShort { needed: answer.returned as usize }),
            number => unreachable!("the library answers 0, 8, 9 or 10, and this is {number}"),
        }
    }
}

impl fmt::Display for QueryError {
    fn fmt(&self, f: &mut fmt::Formatter<'_>) -> fmt::Result {
        match self {
            QueryError::BrokenLog { record: 0 } => f.write_str(
                "the log is broken at record 0 (number 8): its words are not 16 times 1 or more, or one of the \
                 chains that record 0 starts begins outside the log; lend all words of the log, and no others",
            ),
            QueryError::BrokenLog { record } => write!(
                f,
                "the log is broken at record {record} (number 8), the lowest one at fault: a link of it leads out \
                 of the log or stands where its kind has none, it is reached twice, its kind does not fit its \
                 chain, a text of it ends behind the bytes, a span of it ends before its start, or its path is \
                 empty or no path; lend all words and all bytes of the log, as they were written, or write that \
                 record anew"
            ),
            QueryError::BadPath => f.write_str(
                "this is no path (number 9): a path is empty, is \"/\", or has \"/\" before each of its nonempty \
                 components; put a \"/\" in front, and leave out one at the end and one behind another",
            ),
            QueryError::ListTooShort { needed: 1 } => f.write_str(
                "the list is too short (number 10): there is 1 answer; lend a list of 1 place or more",
            ),
            QueryError::ListTooShort { needed } => write!(
                f,
                "the list is too short (number 10): there are {needed} answers; lend a list of {needed} places or \
                 more"
            ),
        }
    }
}

impl Error for QueryError {}

#[cfg(test)]
mod tests {
    use super::*;

    fn answer(number: u32, returned: u32) -> Result<u32, QueryError> {
        QueryError::or_returned(DlAnswer { number, returned })
    }

    #[test]
    fn each_number_is_its_error() {
        assert_eq!(answer(0, 5), Ok(5));
        assert_eq!(answer(8, 5), Err(QueryError::BrokenLog { record: 5 }));
        assert_eq!(answer(9, 0), Err(QueryError::BadPath));
        assert_eq!(answer(10, 5), Err(QueryError::ListTooShort { needed: 5 }));
        for number in [8, 9, 10] {
            assert_eq!(answer(number, 0).unwrap_err().number(), number);
        }
    }

    #[test]
    #[should_panic(expected = "this is 7")]
    fn no_other_number_is_taken() {
        let _ = answer(7, 0);
    }

    #[test]
    fn words_say_where_and_what_to_do() {
        let broken = QueryError::BrokenLog { record: 12 }.to_string();
        assert!(broken.contains("record 12") && broken.contains("lend all words"));
        let head = QueryError::BrokenLog { record: 0 }.to_string();
        assert!(head.contains("record 0") && head.contains("16 times 1 or more"));
        assert!(QueryError::BadPath.to_string().contains("put a \"/\" in front"));
        assert!(QueryError::ListTooShort { needed: 7 }.to_string().contains("7 places"));
        assert!(QueryError::ListTooShort { needed: 1 }.to_string().contains("1 place or"));
    }
}
