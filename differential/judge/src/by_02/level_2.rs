//! Expressions at level 2 (request 10): unsigned numbers of 64 bits that wrap, over the trees that level 1 has.

use crate::{
    by_01::{
        expressions::{Outcome, operand, reported},
        numbers,
    },
    tree::{self, Rec},
};

/// Codes: a division by zero, a shift amount that is not 0 to 63.
const BY_ZERO: u32 = 25;
const SHIFT: u32 = 26;

/// The number that an expression cell (kind 17) of a width stores.
pub fn cell(bits: u32, cell: &Rec) -> Outcome<u64> {
    let result = value(operand(cell, 0)?)?;
    kept(bits, result).ok_or_else(|| reported(15, b"", cell))
}

/// The cell rule: a result that fits unsigned, or whose upper bits are all ones and which fits signed, stored
/// in the cell's bits; 64 bits keep every result.
pub fn kept(bits: u32, result: u64) -> Option<u64> {
    if bits == 64 {
        return Some(result);
    }
    let upper = result >> bits;
    let fits_signed = result.cast_signed() >= -(1 << (bits - 1));
    let fits = upper == 0 || upper == u64::MAX >> bits && fits_signed;
    fits.then_some(result & ((1 << bits) - 1))
}

/// An expression's value.
pub fn value(expression: &Rec) -> Outcome<u64> {
    match expression.kind {
        tree::MACRO => Err(reported(10, &expression.text, expression)),
        tree::NUMBER => {
            numbers::read_unsigned(&expression.text, 64).map_err(|code| reported(code, b"", expression))
        }
        tree::CHARACTER => Ok(expression.w.into()),
        tree::PARENTHESIS => value(operand(expression, 0)?),
        tree::PREFIX if expression.w == 0 => Err(None),
        tree::PREFIX => value(operand(expression, 0)?).map(|operand| prefix(expression.w, operand)),
        _ => infix_value(expression),
    }
}

/// An infix expression: all operands are there before the first is evaluated; &&, || and ?: evaluate what they need.
fn infix_value(expression: &Rec) -> Outcome<u64> {
    let last = if expression.w == 19 { 2 } else { 1 };
    if expression.w == 0 {
        return Err(None);
    }
    operand(expression, last)?;
    let left = value(operand(expression, 0)?)?;
    match (expression.w, left) {
        (11, 0) => Ok(0),
        (12, 1..) => Ok(1),
        (19, 1..) => value(operand(expression, 1)?),
        (19, 0) => value(operand(expression, 2)?),
        (w, _) => {
            let right = value(operand(expression, 1)?)?;
            infix(w, left, right).map_err(|code| reported(code, b"", expression))
        }
    }
}

/// Prefix operator W, 1 to 4.
pub fn prefix(w: u32, operand: u64) -> u64 {
    match w {
        1 => operand,
        2 => operand.wrapping_neg(),
        3 => !operand,
        _ => u64::from(operand == 0),
    }
}

/// Infix operator W, 1 to 18, both operands known.
pub fn infix(w: u32, left: u64, right: u64) -> Result<u64, u32> {
    let amount = u32::try_from(right).ok().filter(|amount| *amount < 64).ok_or(SHIFT);
    Ok(match w {
        1 => left.wrapping_add(right),
        2 => left.wrapping_sub(right),
        3 => left.wrapping_mul(right),
        4 => left.checked_div(right).ok_or(BY_ZERO)?,
        5 => left.checked_rem(right).ok_or(BY_ZERO)?,
        6 => left & right,
        7 => left | right,
        8 => left ^ right,
        9 => left << amount?,
        10 => left >> amount?,
        11 => u64::from(left != 0 && right != 0),
        12 => u64::from(left != 0 || right != 0),
        13 => u64::from(left < right),
        14 => u64::from(left > right),
        15 => u64::from(left <= right),
        16 => u64::from(left >= right),
        17 => u64::from(left == right),
        _ => u64::from(left != right),
    })
}
