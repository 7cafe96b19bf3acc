//! Expressions at level 1: signed numbers of 64 bits.

use super::{numbers, values};
use crate::{
    answer::Diagnosis,
    tree::{self, Rec},
};

/// A value; or the diagnostic that evaluating ends with, none where it fails without a code.
pub type Outcome<T> = Result<T, Option<Diagnosis>>;

/// The number that an expression cell (kind 17) of a width stores.
pub fn cell(bits: u32, cell: &Rec) -> Outcome<u64> {
    let result = value(operand(cell, 0)?)?;
    values::cell(bits, result).map_err(|code| reported(code, b"", cell))
}

/// An expression's value.
pub fn value(expression: &Rec) -> Outcome<i64> {
    let at = |code: u32| reported(code, b"", expression);
    match expression.kind {
        tree::MACRO => Err(reported(10, &expression.text, expression)),
        tree::NUMBER => numbers::read_signed(&expression.text).map_err(at),
        tree::CHARACTER => Ok(expression.w.into()),
        tree::PARENTHESIS => value(operand(expression, 0)?),
        tree::PREFIX if expression.w == 0 => Err(None),
        tree::PREFIX => numbers::prefix(expression.w, value(operand(expression, 0)?)?).map_err(at),
        _ => infix(expression),
    }
}

fn infix(expression: &Rec) -> Outcome<i64> {
    let operands = &expression.child;
    let wanted = if expression.w == 19 { 3 } else { 2 };
    if expression.w == 0 || operands.len() < wanted {
        return Err(None);
    }
    let left = value(&operands[0])?;
    match (expression.w, left != 0) {
        (11, false) => return Ok(0),
        (12, true) => return Ok(1),
        (19, truth) => return value(&operands[if truth { 1 } else { 2 }]),
        _ => {}
    }
    let right = value(&operands[1])?;
    numbers::infix(expression.w, left, right).map_err(|code| reported(code, b"", expression))
}

/// An operand by its place; without it, evaluating fails without a code.
pub fn operand(of: &Rec, place: usize) -> Result<&Rec, Option<Diagnosis>> {
    of.child.get(place).ok_or(None)
}

/// A code with its text at a record.
pub fn reported(code: u32, text: &[u8], at: &Rec) -> Option<Diagnosis> {
    Some(Diagnosis { code, text: text.to_vec(), span: at.span, earlier: (0, 0) })
}
