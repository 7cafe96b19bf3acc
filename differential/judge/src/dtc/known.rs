//! Smallest examples of where 02 and dtc agree and differ, with the answers of both.

use super::{
    Question, Stored,
    asked::{Answer, Dtc, Refusal},
    by_02,
    made::{literal, of},
};
use crate::{
    counts::Counts,
    tree::{self, Rec},
};

use Refusal::{ByZero, Range, Reading};

/// An expression: bits of its cell, as dtc's source, as a record, 02's answer, dtc's.
type Example = (u32, &'static str, Rec, Stored, Answer);

/// Compares the examples, and prints those that are not answered as is due. Aside are those where 02 differs
/// from dtc.
pub fn compared(dtc: &Dtc) -> Result<Counts, String> {
    let mut counts = Counts::default();
    for (bits, source, expression, due, dtc_due) in
        [values(), failures(), narrow(), texts()].into_iter().flatten()
    {
        let cell = of(tree::EXPRESSION, 0, vec![expression]);
        let question = Question { bits, cell, source: format!("({source})") };
        let (rule, dtc) = (by_02(bits, &question.cell), dtc.cells([&question].into_iter())?[0]);
        counts.compared += 1;
        counts.aside += u64::from(due.ok() != dtc_due.ok());
        if (rule, dtc) != (due, dtc_due) {
            counts.different += 1;
            println!(
                "different: /bits/ {bits} <({source})>: 02 {rule:?}, due {due:?}; dtc {dtc:?}, due {dtc_due:?}"
            );
        }
    }
    let Counts { compared, different, aside } = counts;
    println!("{compared} known answers, {different} different, {aside} where 02 differs from dtc");
    Ok(counts)
}

fn infix(w: u32, left: Rec, right: &str) -> Rec {
    of(tree::INFIX, w, vec![left, literal(right)])
}

fn prefix(w: u32, operand: &str) -> Rec {
    of(tree::PREFIX, w, vec![literal(operand)])
}

fn minus(operand: &str) -> Rec {
    prefix(2, operand)
}

/// Unsigned numbers that wrap: both agree.
fn values() -> Vec<Example> {
    let alike = |source, expression, value| (64, source, expression, Ok(value), Ok(value));
    let low = "9223372036854775808";
    vec![
        alike("-1 < 0", infix(13, minus("1"), "0"), 0),
        alike("-1 >> 63", infix(10, minus("1"), "63"), 1),
        alike("-1 / 2", infix(4, minus("1"), "2"), i64::MAX as u64),
        alike("-7 % 3", infix(5, minus("7"), "3"), 0),
        alike("9223372036854775808 + 9223372036854775808", infix(1, literal(low), low), 0),
        alike("0 - 1", infix(2, literal("0"), "1"), u64::MAX),
        alike("9223372036854775808 * 2", infix(3, literal(low), "2"), 0),
        alike("3 << 63", infix(9, literal("3"), "63"), 1 << 63),
        alike("~0", prefix(3, "0"), u64::MAX),
        alike("!5", prefix(4, "5"), 0),
        alike("18446744073709551615", literal("18446744073709551615"), u64::MAX),
    ]
}

/// Divisions by zero and shifts of 64 or more.
fn failures() -> Vec<Example> {
    let by_zero = || infix(4, literal("1"), "0");
    let choice = of(tree::INFIX, 19, vec![literal("1"), literal("2"), by_zero()]);
    let lazily = |w, left| of(tree::INFIX, w, vec![literal(left), by_zero()]);
    let far = of(tree::INFIX, 9, vec![literal("1"), minus("1")]);
    let unneeded = of(tree::INFIX, 11, vec![literal("0"), infix(9, literal("1"), "64")]);
    vec![
        (64, "1 / 0", by_zero(), Err(25), Err(ByZero)),
        (64, "1 % 0", infix(5, literal("1"), "0"), Err(25), Err(ByZero)),
        (64, "0 && 1 / 0", lazily(11, "0"), Ok(0), Err(ByZero)),
        (64, "1 || 1 / 0", lazily(12, "1"), Ok(1), Err(ByZero)),
        (64, "1 ? 2 : 1 / 0", choice, Ok(2), Err(ByZero)),
        (64, "1 << 64", infix(9, literal("1"), "64"), Err(26), Ok(0)),
        (64, "1 << 4294967297", infix(9, literal("1"), "4294967297"), Err(26), Ok(0)),
        (64, "1 << -1", far, Err(26), Ok(0)),
        (64, "-1 >> 64", infix(10, minus("1"), "64"), Err(26), Ok(0)),
        (64, "-1 >> 4294967296", infix(10, minus("1"), "4294967296"), Err(26), Ok(0)),
        (64, "0 && (1 << 64)", unneeded, Ok(0), Ok(0)),
    ]
}

/// Cells of 8, 16 and 32 bits at both sides of their limits.
fn narrow() -> Vec<Example> {
    vec![
        (8, "255", literal("255"), Ok(255), Ok(255)),
        (8, "256", literal("256"), Err(15), Err(Range)),
        (8, "-128", minus("128"), Ok(128), Ok(128)),
        (8, "-129", minus("129"), Err(15), Ok(127)),
        (8, "-256", minus("256"), Err(15), Ok(0)),
        (8, "-257", minus("257"), Err(15), Err(Range)),
        (16, "65535", literal("65535"), Ok(65535), Ok(65535)),
        (16, "65536", literal("65536"), Err(15), Err(Range)),
        (16, "-32768", minus("32768"), Ok(32768), Ok(32768)),
        (16, "-32769", minus("32769"), Err(15), Ok(32767)),
        (32, "0xffffffff80000000", literal("0xffffffff80000000"), Ok(1 << 31), Ok(1 << 31)),
        (32, "0xffffffff7fffffff", literal("0xffffffff7fffffff"), Err(15), Ok((1 << 31) - 1)),
        (32, "4294967295", literal("4294967295"), Ok(u32::MAX.into()), Ok(u32::MAX.into())),
        (32, "4294967296", literal("4294967296"), Err(15), Err(Range)),
        (32, "-4294967297", minus("4294967297"), Err(15), Err(Range)),
    ]
}

/// Texts: what both refuse, and what dtc can't read.
fn texts() -> Vec<Example> {
    let character = |point| of(tree::CHARACTER, point, Vec::new());
    let text = |source, by_02: Stored| (64, source, literal(source), by_02, Err(Reading));
    vec![
        text("18446744073709551616", Err(18)),
        text("08", Err(17)),
        text("0b1", Ok(1)),
        text("0o7", Ok(7)),
        text("1u", Ok(1)),
        text("1l", Ok(1)),
        text("1LU", Ok(1)),
        (64, "017", literal("017"), Ok(15), Ok(15)),
        (64, "+1", prefix(1, "1"), Ok(1), Err(Reading)),
        (64, "'a'", character(97), Ok(97), Ok(97)),
        (64, r"'\xe9'", character(0xe9), Ok(0xe9), Ok(0xe9)),
        (64, "'\u{e9}'", character(0xe9), Ok(0xe9), Err(Reading)),
    ]
}
