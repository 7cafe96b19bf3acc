//! Box numbers: packed decimal, two digits a byte, high digit first.

use std::{error::Error, fmt};

use crate::calls;

/// The most bytes of a box number.
const MOST_BYTES: usize = 8;

/// A box number: packed decimal in 1 to 8 bytes, as a bytestring of the log holds them. It knows its bytes, so that its leading
/// zeros are kept: `00 12 34` and `12 34` have the same value and are not equal.
///
/// ```
/// use definition_log::{BoxNumber, InputKind, OwnedDescription, Tree, Value};
///
/// // `/ { box = [00 12 34]; };`
/// let value = Tree::of(InputKind::Bytestring).text("[00 12 34]");
/// let root = Tree::node([Tree::of(InputKind::Slash)], [Tree::property([Tree::name("box")], [value])]);
/// let lowered = OwnedDescription::of(&[root]).description().lower()?;
/// let log = lowered.log();
/// let property = log.definitions().last().expect("the property");
/// let Some(Value::Bytestring(bytes)) = log.values(property.record).next() else { panic!() };
/// let number = BoxNumber::try_from(bytes)?;
/// assert_eq!((number.value(), number.to_string().as_str()), (1234, "001234"));
///
/// let mut copy = [0xff; 3];
/// number.write_to(&mut copy)?;
/// assert_eq!(copy, bytes);
/// # Ok::<(), Box<dyn std::error::Error>>(())
/// ```
#[derive(Clone, Copy, Debug, PartialEq, Eq, Hash)]
pub struct BoxNumber {
    value: u64,
    bytes: usize,
}

impl BoxNumber {
    /// A number in so many bytes.
    ///
    /// # Errors
    ///
    /// [`BoxError::BadLength`] for other lengths than 1 to 8 bytes, then [`BoxError::TooLarge`] for a number of more than two
    /// digits for each.
    ///
    /// ```
    /// use definition_log::{BoxError, BoxNumber};
    ///
    /// assert_eq!(BoxNumber::new(99, 1)?.to_string(), "99");
    /// assert_eq!(BoxNumber::new(100, 1), Err(BoxError::TooLarge));
    /// assert_eq!(BoxNumber::new(100, 9), Err(BoxError::BadLength));
    /// # Ok::<(), BoxError>(())
    /// ```
    pub fn new(value: u64, bytes: usize) -> Result<BoxNumber, BoxError> {
        let number = BoxNumber { value, bytes };
        let mut room = [0; MOST_BYTES + 1];
        number.write_to(&mut room[..bytes.min(MOST_BYTES + 1)])?;
        Ok(number)
    }

    /// The number.
    ///
    /// ```
    /// # use definition_log::BoxNumber;
    /// assert_eq!(BoxNumber::try_from(&[0x00, 0x07][..])?.value(), 7);
    /// # Ok::<(), definition_log::BoxError>(())
    /// ```
    #[must_use]
    pub fn value(self) -> u64 {
        self.value
    }

    /// How many bytes it has, 1 to 8.
    ///
    /// ```
    /// # use definition_log::BoxNumber;
    /// assert_eq!(BoxNumber::try_from(&[0x00, 0x07][..])?.bytes(), 2);
    /// # Ok::<(), definition_log::BoxError>(())
    /// ```
    #[must_use]
    pub fn bytes(self) -> usize {
        self.bytes
    }

    /// Writes it with leading zeros into all of a slice, which may have another length than its own.
    ///
    /// # Errors
    ///
    /// [`BoxError::BadLength`], then [`BoxError::TooLarge`]; nothing is written then.
    ///
    /// ```
    /// use definition_log::{BoxError, BoxNumber};
    ///
    /// let number = BoxNumber::new(1234, 2)?;
    /// let mut wider = [0xff; 3];
    /// number.write_to(&mut wider)?;
    /// assert_eq!(wider, [0x00, 0x12, 0x34]);
    ///
    /// let mut narrow = [0xff];
    /// assert_eq!(number.write_to(&mut narrow), Err(BoxError::TooLarge));
    /// assert_eq!(narrow, [0xff]);
    /// # Ok::<(), BoxError>(())
    /// ```
    pub fn write_to(self, out: &mut [u8]) -> Result<(), BoxError> {
        BoxError::or_nothing(calls::write_box(self.value, out).number)
    }
}

/// Reads all of a slice: [`BoxError::BadLength`], then [`BoxError::BadDigit`].
impl TryFrom<&[u8]> for BoxNumber {
    type Error = BoxError;

    fn try_from(packed: &[u8]) -> Result<BoxNumber, BoxError> {
        let read = calls::read_box(packed);
        BoxError::or_nothing(read.number)?;
        Ok(BoxNumber { value: read.value, bytes: packed.len() })
    }
}

/// All its digits, two for each byte, with leading zeros.
impl fmt::Display for BoxNumber {
    fn fmt(&self, f: &mut fmt::Formatter<'_>) -> fmt::Result {
        write!(f, "{:0width$}", self.value, width = 2 * self.bytes)
    }
}

/// Why a box number is not read or not written: numbers 11 to 13 of 02's request 1, tried in the order 12, 11, 13.
///
/// ```
/// use definition_log::{BoxError, BoxNumber};
///
/// let refused = BoxNumber::try_from(&[0x99, 0x9a][..]).unwrap_err();
/// assert_eq!((refused, refused.number()), (BoxError::BadDigit, 11));
/// assert_eq!(refused.to_string(), "a byte of the box number has a digit above 9 (number 11)");
/// ```
#[derive(Clone, Copy, Debug, PartialEq, Eq, Hash)]
pub enum BoxError {
    /// A byte has a digit above 9.
    BadDigit,
    /// There is no byte, or there are more than 8.
    BadLength,
    /// The number has more than two digits for each byte.
    TooLarge,
}

impl BoxError {
    /// The error that a number names, none for 0.
    fn or_nothing(number: u32) -> Result<(), BoxError> {
        match number {
            0 => Ok(()),
            11 => Err(BoxError::BadDigit),
            12 => Err(BoxError::BadLength),
            13 => Err(BoxError::TooLarge),
            other => unreachable!("a box number answers 0 or 11 to 13, and not {other}"),
        }
    }

    /// Its number.
    ///
    /// ```
    /// assert_eq!(definition_log::BoxError::TooLarge.number(), 13);
    /// ```
    #[must_use]
    pub fn number(self) -> u32 {
        match self {
            BoxError::BadDigit => 11,
            BoxError::BadLength => 12,
            BoxError::TooLarge => 13,
        }
    }
}

impl fmt::Display for BoxError {
    fn fmt(&self, f: &mut fmt::Formatter<'_>) -> fmt::Result {
        let why = match self {
            BoxError::BadDigit => "a byte of the box number has a digit above 9",
            BoxError::BadLength => "a box number has 1 to 8 bytes",
            BoxError::TooLarge => "the number has more than two digits for each byte",
        };
        write!(f, "{why} (number {})", self.number())
    }
}

impl Error for BoxError {}
