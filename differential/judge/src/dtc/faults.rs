//! Wrong rules, which the comparison with dtc must find.

use super::{Answered, Stored, sort};
use crate::{
    by_01::numbers,
    by_02::level_2,
    tree::{self, Rec},
};

/// A rule for expressions and cells. The infix operators of `signed` go by the signed numbers of level 1.
#[derive(Clone, Copy)]
struct Rule {
    number: fn(&[u8]) -> Stored,
    prefix: fn(u32, u64) -> u64,
    signed: &'static [u32],
    infix: fn(u32, u64, u64) -> Stored,
    all_operands: bool,
    kept: fn(u32, u64) -> Option<u64>,
}

/// 02's rule.
const RIGHT: Rule = Rule {
    number: |text| numbers::read_unsigned(text, 64),
    prefix: level_2::prefix,
    signed: &[],
    infix: level_2::infix,
    all_operands: false,
    kept: level_2::kept,
};

/// Wrong rules by their names.
const FAULTS: [(&str, Rule); 24] = [
    ("signed >>", Rule { signed: &[10], ..RIGHT }),
    ("signed <", Rule { signed: &[13], ..RIGHT }),
    ("signed >", Rule { signed: &[14], ..RIGHT }),
    ("signed <=", Rule { signed: &[15], ..RIGHT }),
    ("signed >=", Rule { signed: &[16], ..RIGHT }),
    ("signed /", Rule { signed: &[4], ..RIGHT }),
    ("signed %", Rule { signed: &[5], ..RIGHT }),
    ("+ that does not wrap", Rule { signed: &[1], ..RIGHT }),
    ("- that does not wrap", Rule { signed: &[2], ..RIGHT }),
    ("* that does not wrap", Rule { signed: &[3], ..RIGHT }),
    ("signed literals", Rule { number: |text| numbers::read_signed(text).map(i64::cast_unsigned), ..RIGHT }),
    ("literals in base 10 despite a leading 0", Rule { number: in_base_10, ..RIGHT }),
    ("prefix - that stops at 0", Rule { prefix: stops_at_0, ..RIGHT }),
    ("~ of the low 32 bits", Rule { prefix: turns_32, ..RIGHT }),
    ("! that turns bits", Rule { prefix: |w, operand| level_2::prefix(w.min(3), operand), ..RIGHT }),
    ("shift amounts modulo 64", Rule { infix: amounts_modulo_64, ..RIGHT }),
    ("a shift of 64 or more is 0", Rule { infix: |w, left, right| or_0(26, w, left, right), ..RIGHT }),
    ("a division by zero is 0", Rule { infix: |w, left, right| or_0(25, w, left, right), ..RIGHT }),
    ("&& and || of bits", Rule { infix: of_bits, ..RIGHT }),
    ("operands evaluated that are not needed", Rule { all_operands: true, ..RIGHT }),
    ("cells that fit unsigned only", Rule { kept: fits_unsigned, ..RIGHT }),
    ("cells that fit signed only", Rule { kept: fits_signed, ..RIGHT }),
    ("cells with all ones above, signed or not", Rule { kept: ones_above, ..RIGHT }),
    ("cells of any result", Rule { kept: |bits, result| Some(result & mask(bits)), ..RIGHT }),
];

/// Prints in how many of the answered cells each fault is found, and counts the faults that never are. The
/// right rule must show nothing.
pub fn unfound(answered: &[Answered]) -> u64 {
    let found = |rule: &Rule| answered.iter().filter(|answered| shows(rule, answered)).count();
    let none = found(&RIGHT);
    println!("{none:>9} of {} cells show a fault in 02's rule", answered.len());
    let mut unfound = u64::from(none > 0);
    for (name, rule) in &FAULTS {
        let times = found(rule);
        println!("{times:>9} of {} cells show the fault: {name}", answered.len());
        unfound += u64::from(times == 0);
    }
    unfound
}

/// Whether the comparison with dtc finds a rule wrong on a cell.
fn shows(rule: &Rule, Answered { question, expected, dtc }: &Answered) -> bool {
    let stored = value(rule, &question.cell).and_then(|result| (rule.kept)(question.bits, result).ok_or(15));
    sort::of(stored, *dtc, expected).is_none()
}

/// An expression's value by a rule.
fn value(rule: &Rule, expression: &Rec) -> Stored {
    let w = expression.w;
    match expression.kind {
        tree::NUMBER => (rule.number)(&expression.text),
        tree::CHARACTER => Ok(w.into()),
        tree::PREFIX => value(rule, &expression.child[0]).map(|operand| (rule.prefix)(w, operand)),
        tree::INFIX => infix(rule, expression),
        _ => value(rule, &expression.child[0]),
    }
}

fn infix(rule: &Rule, expression: &Rec) -> Stored {
    let (w, operands) = (expression.w, &expression.child);
    if rule.all_operands {
        for operand in operands {
            value(rule, operand)?;
        }
    }
    let left = value(rule, &operands[0])?;
    match (w, left) {
        (11, 0) => return Ok(0),
        (12, 1..) => return Ok(1),
        (19, 0) => return value(rule, &operands[2]),
        (19, _) => return value(rule, &operands[1]),
        _ => {}
    }
    let right = value(rule, &operands[1])?;
    if rule.signed.contains(&w) {
        return numbers::infix(w, left.cast_signed(), right.cast_signed()).map(i64::cast_unsigned);
    }
    (rule.infix)(w, left, right)
}

fn in_base_10(text: &[u8]) -> Stored {
    match text {
        [b'0', b'0'..=b'9', ..] => in_base_10(&text[1..]),
        _ => (RIGHT.number)(text),
    }
}

fn stops_at_0(w: u32, operand: u64) -> u64 {
    if w == 2 { 0 } else { level_2::prefix(w, operand) }
}

fn turns_32(w: u32, operand: u64) -> u64 {
    if w == 3 { operand ^ 0xffff_ffff } else { level_2::prefix(w, operand) }
}

fn amounts_modulo_64(w: u32, left: u64, right: u64) -> Stored {
    level_2::infix(w, left, if matches!(w, 9 | 10) { right % 64 } else { right })
}

/// 0 in place of a code.
fn or_0(code: u32, w: u32, left: u64, right: u64) -> Stored {
    level_2::infix(w, left, right).or_else(|other| if other == code { Ok(0) } else { Err(other) })
}

fn of_bits(w: u32, left: u64, right: u64) -> Stored {
    level_2::infix(if matches!(w, 11 | 12) { w - 5 } else { w }, left, right)
}

fn mask(bits: u32) -> u64 {
    u64::MAX >> (64 - bits)
}

fn fits_unsigned(bits: u32, result: u64) -> Option<u64> {
    (result <= mask(bits)).then_some(result)
}

fn fits_signed(bits: u32, result: u64) -> Option<u64> {
    let half = mask(bits) >> 1;
    (result <= half || result >= !half).then_some(result & mask(bits))
}

fn ones_above(bits: u32, result: u64) -> Option<u64> {
    let mask = mask(bits);
    (result <= mask || result | mask == u64::MAX).then_some(result & mask)
}
