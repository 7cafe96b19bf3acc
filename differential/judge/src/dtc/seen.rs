//! What came up in the cells that were asked for.

use super::{
    Question,
    expected::{Expected, Step},
};
use crate::{
    by_01::numbers,
    coverage::Coverage,
    tree::{self, Place, Rec, walk},
};

const INFIX: [&str; 20] = [
    "", "+", "-", "*", "/", "%", "&", "|", "^", "<<", ">>", "&&", "||", "<", ">", "<=", ">=", "==", "!=",
    "?:",
];

/// Suffixes of numbers that dtc takes.
pub const SUFFIXES: [&str; 6] = ["", "U", "L", "UL", "LL", "ULL"];

/// The symbol of prefix operator W, 1 to 4.
pub fn prefix_symbol(w: u32) -> &'static str {
    ["", "+", "-", "~", "!"][w as usize]
}

/// The symbol of infix operator W, 1 to 19.
pub fn infix_symbol(w: u32) -> &'static str {
    INFIX[w as usize]
}

/// Results at both sides of a width's limits, with their names.
pub fn limits(bits: u32) -> Vec<(String, u64)> {
    if bits == 64 {
        let (low, high) = (1 << 63, u64::MAX);
        return [("0", 0), ("2^63 - 1", low - 1), ("2^63", low), ("2^64 - 1", high)]
            .map(|(name, limit)| (name.to_owned(), limit))
            .to_vec();
    }
    let (half, whole) = (1u64 << (bits - 1), 1u64 << bits);
    vec![
        (format!("2^{bits} - 1"), whole - 1),
        (format!("2^{bits}"), whole),
        (format!("-2^{}", bits - 1), half.wrapping_neg()),
        (format!("-2^{} - 1", bits - 1), (half + 1).wrapping_neg()),
        (format!("-2^{bits}"), whole.wrapping_neg()),
        (format!("-2^{bits} - 1"), (whole + 1).wrapping_neg()),
    ]
}

fn at_limit(bits: u32, name: &str) -> String {
    format!("{bits} bits: a result of {name}")
}

/// Amounts that a shift does not take, from where they start.
fn far(w: u32) -> [(String, u64); 2] {
    [("64", 64), ("2^32", 1 << 32)]
        .map(|(name, least)| (format!("{} by {name} or more", infix_symbol(w)), least))
}

/// All that is to come up.
pub fn wanted() -> impl Iterator<Item = String> {
    let prefixes = (2..=4).map(|w| format!("prefix {}", prefix_symbol(w)));
    let infixes = (1..=19).map(|w| format!("infix {}", infix_symbol(w)));
    let widths = [8, 16, 32, 64];
    let results =
        widths.into_iter().flat_map(|bits| limits(bits).into_iter().map(move |limit| (bits, limit)));
    let unsigned = [4, 5, 10, 13, 14, 15, 16].map(|w| format!("{} unlike signed numbers", infix_symbol(w)));
    let wraps = ["+", "-", "*", "<<", "prefix -"].map(|symbol| format!("{symbol} that wraps"));
    let needed = [11, 12, 19].map(|w| format!("{} with an operand that is not needed", infix_symbol(w)));
    let far = [9, 10].into_iter().flat_map(|w| far(w).into_iter().map(|(name, _)| name));
    let by_zero = [4, 5].map(|w| format!("{} by zero", infix_symbol(w)));
    let others = ["a character", "a character of 128 or more", "a literal of 2^63 or more", "parentheses"];
    let bases = ["10", "16", "8"].map(|base| format!("a literal in base {base}"));
    prefixes
        .chain(infixes)
        .chain(widths.map(|bits| format!("{bits} bits")))
        .chain(results.map(|(bits, (name, _))| at_limit(bits, &name)))
        .chain(unsigned)
        .chain(wraps)
        .chain(needed)
        .chain(far)
        .chain(by_zero)
        .chain(bases)
        .chain(SUFFIXES.iter().skip(1).map(|suffix| format!("a literal with {suffix}")))
        .chain(others.map(str::to_owned))
}

/// Notes a cell that was asked for.
pub fn note(coverage: &mut Coverage, question: &Question, expected: &Expected) {
    let bits = question.bits;
    coverage.add(format!("{bits} bits"), 1);
    for (name, limit) in limits(bits) {
        coverage.add(at_limit(bits, &name), u64::from(expected.result == limit));
    }
    walk(&question.cell.child, Place::Expression, 1, &mut |rec, _, _| note_operand(coverage, rec));
    for step in &expected.steps {
        note_step(coverage, step);
    }
}

fn note_operand(coverage: &mut Coverage, rec: &Rec) {
    let mut add = |feature: &str, came: bool| coverage.add(feature.to_owned(), u64::from(came));
    match rec.kind {
        tree::NUMBER => {
            let text = String::from_utf8_lossy(&rec.text);
            let digits = text.trim_end_matches(['U', 'L']);
            let base = match digits.as_bytes() {
                [b'0', b'x' | b'X', ..] => "16",
                [b'0', _, ..] => "8",
                _ => "10",
            };
            add(&format!("a literal in base {base}"), true);
            if digits != text {
                add(&format!("a literal with {}", &text[digits.len()..]), true);
            }
            add("a literal of 2^63 or more", numbers::read_signed(&rec.text).is_err());
        }
        tree::CHARACTER => {
            add("a character", true);
            add("a character of 128 or more", rec.w >= 128);
        }
        tree::PARENTHESIS => add("parentheses", true),
        _ => {}
    }
}

fn note_step(coverage: &mut Coverage, step: &Step) {
    let Step { kind, w, left, right, needed, outcome } = *step;
    let mut add = |feature: String, came: bool| coverage.add(feature, u64::from(came));
    if kind == tree::PREFIX {
        add(format!("prefix {}", prefix_symbol(w)), true);
        add("prefix - that wraps".to_owned(), w == 2 && left > 0);
        return;
    }
    let symbol = infix_symbol(w);
    add(format!("infix {symbol}"), true);
    if matches!(w, 9 | 10) {
        far(w).into_iter().for_each(|(name, least)| add(name, right >= least));
    }
    if matches!(w, 4 | 5) {
        add(format!("{symbol} by zero"), right == 0);
    }
    match w {
        1 => add("+ that wraps".to_owned(), left.checked_add(right).is_none()),
        2 => add("- that wraps".to_owned(), left < right),
        3 => add("* that wraps".to_owned(), left.checked_mul(right).is_none()),
        9 => add("<< that wraps".to_owned(), outcome.is_ok_and(|shifted| shifted >> right != left)),
        11 | 12 => {
            add(format!("{symbol} with an operand that is not needed"), needed && (w == 11) == (left == 0))
        }
        19 => add(format!("{symbol} with an operand that is not needed"), needed),
        4 | 5 | 10 | 13..=16 => {
            let signed = numbers::infix(w, left.cast_signed(), right.cast_signed()).map(i64::cast_unsigned);
            add(format!("{symbol} unlike signed numbers"), signed != outcome);
        }
        _ => {}
    }
}
