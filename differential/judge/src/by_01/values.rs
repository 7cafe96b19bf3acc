//! Values: bytestrings, widths, cells and references' texts.

use super::numbers;
use crate::answer::Target;

/// Hex digits up to the first ], all else skipped; an odd count gives 11.
pub fn bytestring(text: &[u8]) -> Result<Vec<u8>, u32> {
    let text = text.split(|byte| *byte == b']').next().unwrap_or_default();
    let digits: Vec<u8> =
        text.iter().filter_map(|byte| char::from(*byte).to_digit(16)).map(|digit| digit as u8).collect();
    if digits.len() % 2 == 1 {
        Err(11)
    } else {
        Ok(digits.chunks(2).map(|pair| pair[0] * 16 + pair[1]).collect())
    }
}

/// The width of a cell list by its text.
pub fn width(text: &[u8]) -> Result<u32, u32> {
    if text.is_empty() {
        return Ok(32);
    }
    match numbers::read_unsigned(text, 32)? {
        bits @ (8 | 16 | 32 | 64) => Ok(bits as u32),
        _ => Err(12),
    }
}

/// An expression's value in a cell: kept if it fits the unsigned or the signed width.
pub fn cell(bits: u32, value: i64) -> Result<u64, u32> {
    let value = i128::from(value);
    let whole = 1i128 << bits;
    if (-whole / 2..whole).contains(&value) { Ok(value.rem_euclid(whole) as u64) } else { Err(15) }
}

/// A character in a cell.
pub fn character(bits: u32, point: u32) -> Result<u64, u32> {
    if u128::from(point) < 1u128 << bits { Ok(point.into()) } else { Err(13) }
}

/// What a raw reference names.
pub fn raw_reference(raw: &[u8]) -> Option<Target> {
    let inner = raw.strip_prefix(b"&{")?.strip_suffix(b"}")?;
    let target =
        |form, label: &[u8], path: &[u8]| Target { form, label: label.to_vec(), path: path.to_vec() };
    Some(match inner.iter().position(|byte| *byte == b'/') {
        Some(0) => target(3, b"", inner),
        Some(slash) => target(2, &inner[..slash], &inner[slash + 1..]),
        None => target(1, inner, b""),
    })
}
