//! Box numbers as packed decimal (request 1).

use std::ops::RangeInclusive;

use crate::worked::hex;

/// "1 to 8 bytes".
pub const LENGTHS: RangeInclusive<usize> = 1..=8;

/// "A digit above 9 is refused with 11, a length outside 1 to 8 with 12, a number too large for its length with 13, tested in the
/// order 12, 11, 13".
pub const BAD_DIGIT: u32 = 11;
pub const BAD_LENGTH: u32 = 12;
pub const TOO_LARGE: u32 = 13;

/// The number that bytes hold, "two digits a byte, high digit first": their text in base 16, read in base 10. It has at most 16
/// digits, and so fails for a letter alone.
pub fn read(bytes: &[u8]) -> Result<u64, u32> {
    if !LENGTHS.contains(&bytes.len()) {
        return Err(BAD_LENGTH);
    }
    hex(bytes).parse().map_err(|_| BAD_DIGIT)
}

/// The bytes of so many that hold a number, "with leading zeros": its text in base 10, filled up with zeros, taken two digits at a
/// time in base 16.
pub fn written(value: u64, length: usize) -> Result<Vec<u8>, u32> {
    if !LENGTHS.contains(&length) {
        return Err(BAD_LENGTH);
    }
    let digits = format!("{value:0width$}", width = 2 * length);
    if digits.len() > 2 * length {
        return Err(TOO_LARGE);
    }
    let byte = |at: usize| u8::from_str_radix(&digits[2 * at..][..2], 16).expect("two digits");
    Ok((0..length).map(byte).collect())
}
