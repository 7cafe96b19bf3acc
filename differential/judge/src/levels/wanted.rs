//! What is to come up at level 2, and what did: of the expressions that are evaluated, beside what level 1
//! gives for them.

use crate::{
    by_01::{
        self,
        expressions::{self, Outcome},
        numbers,
    },
    by_02::level_2,
    coverage::{Coverage, IN_EXPRESSION},
    octal,
    records::SIGNED,
    tree::{self, Rec},
    trees::Judged,
};

/// What is to come up.
pub fn wanted() -> Coverage {
    let mut wanted: Vec<String> = ONCE.map(str::to_owned).to_vec();
    wanted.extend((1..=4).map(|w| with_value(&operator(tree::PREFIX, w))));
    wanted.extend((1..=19).map(|w| with_value(&operator(tree::INFIX, w))));
    wanted.extend([10, 15, 16, 17, 18, 25, 26].map(code_of_expression));
    wanted.push(wraps(&operator(tree::PREFIX, 2)));
    wanted.extend((1..=5).map(|w| wraps(&operator(tree::INFIX, w))));
    wanted.extend([4, 5, 10, 13, 14, 15, 16].map(|w| differs(&operator(tree::INFIX, w))));
    wanted.extend([9, 10].into_iter().flat_map(|w| AMOUNTS.map(|amount| shifted(w, amount))));
    for bits in [8, 16, 32] {
        wanted.extend(limits(bits).map(|(name, _)| name));
    }
    wanted.push(ALL_ONES.to_owned());
    wanted.extend(octal::wanted(IN_EXPRESSION, &[17, 18], "read"));
    Coverage::wanting(wanted.into_iter())
}

const LARGE: &str = "a literal of 2^63 or more, read";
const MINUS: &str = "a literal that level 1 reads with its minus, code 17";
const NO_CODE: &str = "an expression that fails without a code";
const STORED: &str = "a cell with 24 at level 1, stored";
const OTHER_LOG: &str = "the levels give different logs";
const SAME_LOG: &str = "the levels give the same log";
const ONCE: [&str; 6] = [LARGE, MINUS, NO_CODE, STORED, OTHER_LOG, SAME_LOG];

/// Shift amounts above 63: small ones, and those that are negative at level 1.
const AMOUNTS: [&str; 2] = ["64 or more", "a number that level 1 has below 0"];

const ALL_ONES: &str = "64 bits keep 2^64 - 1";

fn operator(kind: u32, w: u32) -> String {
    format!("{} {w}", if kind == tree::PREFIX { "prefix" } else { "infix" })
}

fn with_value(operator: &str) -> String {
    format!("{operator} with a value")
}

fn code_of_expression(code: u32) -> String {
    format!("code {code} of an expression")
}

fn wraps(operator: &str) -> String {
    format!("{operator}: 24 at level 1, a value at level 2")
}

fn differs(operator: &str) -> String {
    format!("{operator}: another value at each level")
}

fn shifted(w: u32, amount: &str) -> String {
    format!("infix {w} by {amount}, code 26")
}

/// The results beside both ends of a width, with what becomes of them.
fn limits(bits: u32) -> [(String, u64); 4] {
    let (whole, half) = (1u64 << bits, 1u64 << (bits - 1));
    let name = |result: &str, became: &str| format!("{bits} bits: {result}, {became}");
    [
        (name("2^w - 1", "kept"), whole - 1),
        (name("2^w", "code 15"), whole),
        (name("2^64 - 2^(w-1)", "kept"), half.wrapping_neg()),
        (name("2^64 - 2^(w-1) - 1", "code 15"), half.wrapping_neg() - 1),
    ]
}

/// Notes a description that was lowered at level 2.
pub fn note(judged: &Judged, coverage: &mut Coverage) {
    for (bits, cell) in &judged.by_01.cells {
        note_cell(*bits, cell, coverage);
    }
    let same = by_01::lower::lower(&judged.case.top, SIGNED).answer == judged.answer;
    coverage.add((if same { SAME_LOG } else { OTHER_LOG }).to_owned(), 1);
}

fn code_in<T>(outcome: &Outcome<T>) -> Option<u32> {
    outcome.as_ref().err()?.as_ref().map(|found| found.code)
}

fn note_cell(bits: u32, cell: &Rec, coverage: &mut Coverage) {
    let (signed, unsigned) = (expressions::cell(bits, cell), level_2::cell(bits, cell));
    match code_in(&unsigned) {
        Some(code) => coverage.add(code_of_expression(code), 1),
        None => coverage.add_if(NO_CODE.to_owned(), unsigned.is_err()),
    }
    coverage.add_if(STORED.to_owned(), code_in(&signed) == Some(24) && unsigned.is_ok());
    let Some(expression) = cell.child.first() else { return };
    if let Ok(result) = level_2::value(expression) {
        note_result(bits, result, &unsigned, coverage);
    }
    let mut evaluated = Vec::new();
    needed(expression, &mut evaluated);
    for expression in evaluated {
        note_expression(expression, coverage);
    }
}

/// A result at an end of its width, where the right thing became of it.
fn note_result(bits: u32, result: u64, stored: &Outcome<u64>, coverage: &mut Coverage) {
    if bits == 64 {
        coverage.add_if(ALL_ONES.to_owned(), result == u64::MAX && *stored == Ok(u64::MAX));
        return;
    }
    for (name, limit) in limits(bits) {
        let became = if name.ends_with("kept") { stored.is_ok() } else { code_in(stored) == Some(15) };
        coverage.add_if(name, result == limit && became);
    }
}

/// An expression, and those in it that are evaluated for it.
fn needed<'a>(expression: &'a Rec, found: &mut Vec<&'a Rec>) {
    found.push(expression);
    let wanted = match (expression.kind, expression.w) {
        (tree::PREFIX | tree::INFIX, 0) => return,
        (tree::PREFIX | tree::PARENTHESIS, _) => 1,
        (tree::INFIX, 19) => 3,
        (tree::INFIX, _) => 2,
        _ => return,
    };
    let operands = &expression.child;
    if operands.len() < wanted {
        return;
    }
    needed(&operands[0], found);
    let second = match (expression.w, level_2::value(&operands[0])) {
        (_, Err(_)) | (11, Ok(0)) | (12, Ok(1..)) => None,
        (19, Ok(0)) => Some(2),
        _ => Some(1),
    };
    if let Some(operand) = second.filter(|_| wanted > 1) {
        needed(&operands[operand], found);
    }
}

fn note_expression(expression: &Rec, coverage: &mut Coverage) {
    let (signed, unsigned) = (expressions::value(expression), level_2::value(expression));
    match expression.kind {
        tree::NUMBER => {
            let read = numbers::read_unsigned(&expression.text, 64);
            coverage.note_octal(IN_EXPRESSION, &expression.text, &read);
            coverage.add_if(LARGE.to_owned(), unsigned.is_ok_and(|value| value >= 1 << 63));
            let minus = signed.is_ok() && expression.text.contains(&b'-') && read == Err(17);
            coverage.add_if(MINUS.to_owned(), minus);
        }
        tree::PREFIX | tree::INFIX => note_operator(expression, &signed, &unsigned, coverage),
        _ => {}
    }
}

/// An operator with its results at both levels.
fn note_operator(expression: &Rec, signed: &Outcome<i64>, unsigned: &Outcome<u64>, coverage: &mut Coverage) {
    let Rec { kind, w, child: operands, .. } = expression;
    let name = operator(*kind, *w);
    coverage.add_if(with_value(&name), unsigned.is_ok());
    if *kind == tree::INFIX && matches!(w, 9 | 10) && code_in(unsigned) == Some(26) {
        match level_2::value(&operands[1]) {
            Ok(64..=0x7fff_ffff_ffff_ffff) => coverage.add(shifted(*w, AMOUNTS[0]), 1),
            Ok(_) => coverage.add(shifted(*w, AMOUNTS[1]), 1),
            Err(_) => {}
        }
    }
    if operands.iter().all(is_alike) {
        coverage.add_if(wraps(&name), code_in(signed) == Some(24) && unsigned.is_ok());
        let other = matches!((signed, unsigned), (Ok(one), Ok(other)) if one.cast_unsigned() != *other);
        coverage.add_if(differs(&name), other);
    }
}

/// Whether an expression has the same bits at both levels.
fn is_alike(expression: &Rec) -> bool {
    let signed = expressions::value(expression).map(i64::cast_unsigned);
    signed.is_ok() && signed == level_2::value(expression)
}
