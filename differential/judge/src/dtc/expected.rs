//! What dtc does with an expression, as measured: 02's operators, but all operands are evaluated, a shift of
//! 64 or more gives 0, a division by zero anywhere is refused, and a narrow cell keeps the low bits of what
//! fits, or has all ones above them.

use super::asked::{Answer, Refusal};
use crate::{
    by_01::numbers,
    by_02::level_2,
    tree::{self, Rec},
};

/// An operator with its operands' values, whether 02 evaluates it, and 02's value or code. A prefix operator's
/// operand is the left one.
pub struct Step {
    pub kind: u32,
    pub w: u32,
    pub left: u64,
    pub right: u64,
    pub needed: bool,
    pub outcome: Result<u64, u32>,
}

/// What is expected of dtc for a cell.
pub struct Expected {
    pub answer: Answer,
    /// The value before it is stored.
    pub result: u64,
    pub steps: Vec<Step>,
    /// The number that is stored if the result fits, unsigned or signed.
    pub kept: Option<u64>,
}

impl Expected {
    pub fn of(bits: u32, cell: &Rec) -> Self {
        let mut steps = Vec::new();
        let result = value(cell, true, &mut steps);
        let by_zero = steps.iter().any(|step| step.outcome == Err(25));
        let answer = if by_zero { Err(Refusal::ByZero) } else { stored(bits, result) };
        let fits = result.leading_zeros() >= 64 - bits || result.leading_ones() > 64 - bits;
        let kept = stored(bits, result).ok().filter(|_| fits);
        Self { answer, result, steps, kept }
    }

    /// Whether 02 evaluates an operator that fails with a code.
    pub fn evaluates(&self, code: u32) -> bool {
        self.steps.iter().any(|step| step.needed && step.outcome == Err(code))
    }
}

/// What a cell keeps of a result.
fn stored(bits: u32, result: u64) -> Answer {
    let mask = u64::MAX >> (64 - bits);
    if result <= mask || result | mask == u64::MAX { Ok(result & mask) } else { Err(Refusal::Range) }
}

/// An expression's value, and its steps.
fn value(expression: &Rec, needed: bool, steps: &mut Vec<Step>) -> u64 {
    let w = expression.w;
    match expression.kind {
        tree::NUMBER => numbers::read_unsigned(&expression.text, 64).expect("a number that is made"),
        tree::CHARACTER => w.into(),
        tree::PREFIX => {
            let left = value(&expression.child[0], needed, steps);
            let value = level_2::prefix(w, left);
            steps.push(Step { kind: tree::PREFIX, w, left, right: 0, needed, outcome: Ok(value) });
            value
        }
        tree::INFIX => infix(expression, needed, steps),
        _ => value(&expression.child[0], needed, steps),
    }
}

/// An infix expression. A division by zero goes on with any value, since dtc refuses it.
fn infix(expression: &Rec, needed: bool, steps: &mut Vec<Step>) -> u64 {
    let w = expression.w;
    let left = value(&expression.child[0], needed, steps);
    let second = !matches!((w, left), (11 | 19, 0) | (12, 1..));
    let right = value(&expression.child[1], needed && second, steps);
    let outcome = match w {
        19 => {
            let third = value(&expression.child[2], needed && !second, steps);
            Ok(if second { right } else { third })
        }
        4 | 5 if right == 0 => Err(25),
        9 | 10 if right >= 64 => Err(26),
        _ => level_2::infix(w, left, right),
    };
    steps.push(Step { kind: tree::INFIX, w, left, right, needed, outcome });
    outcome.unwrap_or(0)
}
