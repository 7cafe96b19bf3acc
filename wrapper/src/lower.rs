//! Descriptions, and what they are lowered to.

use crate::{
    Files, Log, LowerError, calls,
    lower_error::MOST_BYTES,
    read::{MOST_RECORDS, RECORD_WORDS},
};

/// How many times as large as the last ones the buffers are that a lowering is tried again with.
const GROWTH: usize = 4;

/// What the expressions of a description are reckoned with.
///
/// ```
/// use definition_log::{Cell, Infix, InputKind, Level, LowerError, OwnedDescription, Tree, Value};
///
/// // p = /bits/ 64 <(0 - 1 < 0)>
/// let number = |text| Tree::of(InputKind::Number).text(text);
/// let minus_one = Tree::of(InputKind::Infix(Infix::Subtract)).with([number("0"), number("1")]);
/// let less = Tree::of(InputKind::Infix(Infix::Less)).with([minus_one, number("0")]);
/// let list = Tree::of(InputKind::CellList).text("64").with([Tree::of(InputKind::Expression).with([less])]);
/// let root = Tree::node([Tree::of(InputKind::Slash)], [Tree::property([Tree::name("p")], [list])]);
/// let described = OwnedDescription::of(&[root]);
/// let cell = |level| {
///     let lowered = described.description().at_level(level).lower()?;
///     let log = lowered.log();
///     let p = log.definitions().last().expect("p").record;
///     let Some(Value::CellList { record, .. }) = log.values(p).next() else { panic!("a list") };
///     let Some(Cell::Number(number)) = log.cells(record).next() else { panic!("a number") };
///     Ok::<u64, LowerError>(number)
/// };
/// assert_eq!(cell(Level::Signed)?, 1, "-1 is below 0");
/// assert_eq!(cell(Level::Unsigned)?, 0, "2^64 - 1 is not");
/// # Ok::<(), LowerError>(())
/// ```
#[derive(Clone, Copy, Debug, Default, PartialEq, Eq, Hash)]
pub enum Level {
    /// Level 1: signed 64-bit numbers; a result outside of them is reported.
    #[default]
    Signed,
    /// Level 2: unsigned 64-bit numbers that wrap, as dtc reckons.
    Unsigned,
}

impl Level {
    /// 02's number: 1 or 2.
    ///
    /// ```
    /// use definition_log::Level;
    ///
    /// assert_eq!((Level::Signed.number(), Level::Unsigned.number()), (1, 2));
    /// ```
    #[must_use]
    pub const fn number(self) -> u32 {
        match self {
            Level::Signed => 1,
            Level::Unsigned => 2,
        }
    }
}

impl TryFrom<u32> for Level {
    type Error = LowerError;

    /// The level of a number, or [`NoLevel`](LowerError::NoLevel).
    ///
    /// ```
    /// use definition_log::{Level, LowerError};
    ///
    /// assert_eq!(Level::try_from(2), Ok(Level::Unsigned));
    /// assert_eq!(Level::try_from(0), Err(LowerError::NoLevel { level: 0 }));
    /// ```
    fn try_from(number: u32) -> Result<Level, LowerError> {
        match number {
            1 => Ok(Level::Signed),
            2 => Ok(Level::Unsigned),
            level => Err(LowerError::NoLevel { level }),
        }
    }
}

/// A description that someone holds: its words, 8 to a record, and its text. It may be broken; lowering
/// tests it first.
///
/// 01 has the records under "Records", `include/definition_log.h` tells them in short, and
/// [`OwnedDescription::of`](crate::OwnedDescription::of) writes them for a [`Tree`](crate::Tree).
///
/// ```
/// use definition_log::{Description, Kind};
///
/// // Record 0, whose child is record 1: a directive (3), the version's (1), at 0-9.
/// let words = [0, 0, 1, 0, 0, 0, 0, 0, 3, 0, 0, 0, 0, 1, 0, 9];
/// let lowered = Description::new(&words, b"").lower()?;
/// let first = lowered.log().definitions().next().expect("a definition");
/// assert_eq!((first.kind, first.span), (Kind::Version, 0..9));
/// # Ok::<(), definition_log::LowerError>(())
/// ```
#[derive(Clone, Copy, Debug)]
pub struct Description<'a> {
    words: &'a [u32],
    text: &'a [u8],
    level: Level,
    starts: &'a [u32],
}

impl<'a> Description<'a> {
    /// The description in these words and this text, at level 1, of one file.
    ///
    /// ```
    /// use definition_log::Description;
    ///
    /// // Record 0 alone describes nothing.
    /// let lowered = Description::new(&[0; 8], b"").lower()?;
    /// assert_eq!(lowered.log().definitions().count(), 0);
    /// # Ok::<(), definition_log::LowerError>(())
    /// ```
    #[must_use]
    pub const fn new(words: &'a [u32], text: &'a [u8]) -> Description<'a> {
        Description { words, text, level: Level::Signed, starts: &[0] }
    }

    /// The same description at a level.
    ///
    /// ```
    /// use definition_log::{Level, sample};
    ///
    /// let description = sample::description().at_level(Level::Unsigned);
    /// assert_eq!(description.level(), Level::Unsigned);
    /// assert_eq!(description.lower()?.log().definitions().count(), 8);
    /// # Ok::<(), definition_log::LowerError>(())
    /// ```
    #[must_use]
    pub const fn at_level(self, level: Level) -> Description<'a> {
        Description { level, ..self }
    }

    /// The same description, of these files. The log then has the number of its file with each definition,
    /// binding, extension and diagnostic: that of the last file that does not start above the span's start.
    ///
    /// ```
    /// use definition_log::{Files, sample};
    ///
    /// let files = Files::new(&[0, 27])?;
    /// let lowered = sample::description().in_files(&files).lower()?;
    /// let numbers: Vec<usize> = lowered.log().definitions().map(|definition| definition.file).collect();
    /// assert_eq!(numbers, [0, 0, 0, 1, 1, 1, 1, 1]);
    /// # Ok::<(), definition_log::LowerError>(())
    /// ```
    #[must_use]
    pub const fn in_files(self, files: &'a Files) -> Description<'a> {
        Description { starts: files.starts(), ..self }
    }

    /// Its level.
    ///
    /// ```
    /// use definition_log::{Level, sample};
    ///
    /// assert_eq!(sample::description().level(), Level::Signed);
    /// ```
    #[must_use]
    pub const fn level(&self) -> Level {
        self.level
    }

    /// Where its files start.
    ///
    /// ```
    /// assert_eq!(definition_log::sample::description().starts(), [0], "it is one file");
    /// ```
    #[must_use]
    pub const fn starts(&self) -> &'a [u32] {
        self.starts
    }

    /// Its words.
    ///
    /// ```
    /// assert_eq!(definition_log::sample::description().words()[2], 1, "the first top item");
    /// ```
    #[must_use]
    pub const fn words(&self) -> &'a [u32] {
        self.words
    }

    /// Its text.
    ///
    /// ```
    /// assert!(definition_log::sample::description().text().starts_with(b"/dts-v1/;"));
    /// ```
    #[must_use]
    pub const fn text(&self) -> &'a [u8] {
        self.text
    }

    /// Lowers it into buffers that grow as needed. A reference by a path may leave out unit addresses:
    /// the node that is meant is reopened or deleted under its full path.
    ///
    /// # Errors
    ///
    /// All of [`LowerError`]; [`NoRoom`](LowerError::NoRoom) only where the log needs more than 65,536
    /// records or 2^24 bytes.
    ///
    /// ```
    /// use definition_log::sample;
    ///
    /// let lowered = sample::description().lower()?;
    /// let log = lowered.log();
    /// assert!(log.contains_node("/b")?);
    /// assert_eq!(log.history("/c")?.len(), 2, "defined, then deleted");
    /// # Ok::<(), Box<dyn std::error::Error>>(())
    /// ```
    pub fn lower(&self) -> Result<OwnedLog, LowerError> {
        // At first two records of the log for each of the description, and a few more.
        self.lower_from(self.words.len() / 4 + 16, self.text.len() + 1024)
    }

    /// Lowers it into buffers of these sizes, and of larger ones as long as they do not do.
    fn lower_from(&self, records: usize, bytes: usize) -> Result<OwnedLog, LowerError> {
        let (mut records, mut bytes) = (records.min(MOST_RECORDS), bytes.min(MOST_BYTES));
        loop {
            let mut log = OwnedLog { words: vec![0; records * RECORD_WORDS], bytes: vec![0; bytes] };
            match self.lower_into(&mut log.words, &mut log.bytes) {
                Err(LowerError::NoRoom { .. }) if records < MOST_RECORDS || bytes < MOST_BYTES => {
                    records = (records * GROWTH).clamp(1, MOST_RECORDS);
                    bytes = (bytes * GROWTH).clamp(1, MOST_BYTES);
                }
                Err(refused) => return Err(refused),
                Ok(_) => return Ok(log),
            }
        }
    }

    /// [`lower`](Description::lower) into buffers that the caller lends, 16 words to a record. What they
    /// held does not matter; what of them is no part of the log is zero afterwards.
    ///
    /// The log is lent from the buffers. It has all of their whole records, and
    /// [`records_used`](Log::records_used) and [`bytes_used`](Log::bytes_used) say how many were needed.
    ///
    /// # Errors
    ///
    /// All of [`LowerError`]. After [`NoRoom`](LowerError::NoRoom) the buffers are zeros, after the
    /// others they are as they were.
    ///
    /// ```
    /// use definition_log::sample;
    ///
    /// let (mut words, mut bytes) = ([0; 16 * 16], [0; 64]);
    /// let log = sample::description().lower_into(&mut words, &mut bytes)?;
    /// assert_eq!((log.records_used(), log.bytes_used()), (11, 18));
    /// assert_eq!(log.bindings().count(), 1);
    /// # Ok::<(), definition_log::LowerError>(())
    /// ```
    ///
    /// What is read and what is written cannot overlap:
    ///
    /// ```compile_fail,E0502
    /// # use definition_log::Description;
    /// let (mut words, mut bytes) = ([0; 64], [0; 64]);
    /// let log = Description::new(&[0; 8], &bytes).lower_into(&mut words, &mut bytes);
    /// ```
    pub fn lower_into<'b>(&self, out: &'b mut [u32], bytes: &'b mut [u8]) -> Result<Log<'b>, LowerError> {
        let records = out.len() / RECORD_WORDS;
        let level = self.level.number();
        let answer = calls::lower(self.words, self.text, level, self.starts, out, bytes);
        let input = (self.words.len(), self.text.len());
        LowerError::or_lowered(answer, input, level, self.starts, (records, bytes.len()))?;
        Ok(Log::new(&out[..records * RECORD_WORDS], bytes))
    }
}

/// A log with its own words and bytes.
///
/// ```
/// use definition_log::{OwnedLog, sample};
///
/// let lowered: OwnedLog = sample::description().lower()?;
/// assert_eq!(lowered.log().definitions().count(), 8);
/// # Ok::<(), definition_log::LowerError>(())
/// ```
#[derive(Clone, Debug)]
pub struct OwnedLog {
    words: Vec<u32>,
    bytes: Vec<u8>,
}

impl OwnedLog {
    /// The log, to ask and to read.
    ///
    /// ```
    /// use definition_log::sample;
    ///
    /// let lowered = sample::description().lower()?;
    /// assert!(!lowered.log().contains_node("/c")?, "it was deleted");
    /// # Ok::<(), Box<dyn std::error::Error>>(())
    /// ```
    #[must_use]
    pub fn log(&self) -> Log<'_> {
        Log::new(&self.words, &self.bytes)
    }

    /// Its words and its bytes, which may be more than the log needs.
    ///
    /// ```
    /// use definition_log::{Log, sample};
    ///
    /// let (words, bytes) = sample::description().lower()?.into_parts();
    /// assert!(Log::new(&words, &bytes).contains_node("/b")?);
    /// # Ok::<(), Box<dyn std::error::Error>>(())
    /// ```
    #[must_use]
    pub fn into_parts(self) -> (Vec<u32>, Vec<u8>) {
        (self.words, self.bytes)
    }
}

#[cfg(test)]
mod tests {
    use crate::sample;

    #[test]
    fn buffers_grow_from_any_size() {
        for (records, bytes) in [(0, 0), (0, 18), (11, 0), (10, 17), (11, 18), (usize::MAX, usize::MAX)] {
            let lowered = sample::description().lower_from(records, bytes).unwrap();
            assert_eq!((lowered.log().records_used(), lowered.log().bytes_used()), (11, 18));
        }
    }

    #[test]
    fn buffers_that_do_are_not_grown() {
        let (words, bytes) = sample::description().lower_from(11, 18).unwrap().into_parts();
        assert_eq!((words.len(), bytes.len()), (11 * 16, 18));
        let (words, bytes) = sample::description().lower_from(10, 18).unwrap().into_parts();
        assert_eq!((words.len(), bytes.len()), (40 * 16, 72));
    }
}
