//! Expressions of level 2: literals of all 64 bits, and results where the levels part.

use super::Maker;
use crate::tree::{self, Rec};

/// A minus or ~ in front is an operator over the literal behind it.
const OPERANDS: [&str; 20] = [
    "0",
    "1",
    "2",
    "3",
    "7",
    "63",
    "64",
    "-1",
    "-2",
    "-7",
    "-128",
    "-129",
    "0x7fffffffffffffff",
    "0x8000000000000000",
    "~0x7fffffffffffffff",
    "18446744073709551615",
    "0xffffffff80000000",
    "255",
    "256",
    "4294967296",
];

/// An infix operator with operands on which the levels part, or on which it fails.
const EDGES: [(u32, &str, &str); 20] = [
    (1, "0x7fffffffffffffff", "1"),
    (1, "~0", "~0x7fffffffffffffff"),
    (2, "~0x7fffffffffffffff", "1"),
    (2, "0", "~0x7fffffffffffffff"),
    (3, "0x7fffffffffffffff", "2"),
    (3, "~0x7fffffffffffffff", "-1"),
    (4, "~0x7fffffffffffffff", "-1"),
    (4, "-1", "2"),
    (5, "~0x7fffffffffffffff", "-1"),
    (5, "-7", "3"),
    (9, "1", "64"),
    (9, "1", "-1"),
    (10, "-1", "63"),
    (10, "-1", "64"),
    (10, "1", "-1"),
    (13, "-1", "0"),
    (14, "0", "-1"),
    (15, "-1", "0"),
    (16, "0", "-1"),
    (13, "1", "0x8000000000000000"),
];

/// Results beside both ends of each width.
const RESULTS: [&str; 14] = [
    "255",
    "256",
    "-128",
    "-129",
    "65535",
    "65536",
    "-32768",
    "-32769",
    "4294967295",
    "4294967296",
    "-2147483648",
    "-2147483649",
    "18446744073709551615",
    "0xffffffff7fffffff",
];

impl Maker {
    /// An operand of level 2; once in a while the text of a signed literal, which is none there.
    pub(super) fn unsigned_operand(&mut self) -> Rec {
        match self.random.below(12) {
            0 => {
                let text = self.random.pick(&["-1", "0x-1", "-9223372036854775808", "-010"]);
                self.text(tree::NUMBER, text)
            }
            1 => self.number(&["18446744073709551616"]),
            _ => {
                let text = self.random.pick(&OPERANDS);
                self.signed_text(text)
            }
        }
    }

    /// A literal, below an operator where its text has one in front.
    fn signed_text(&mut self, text: &str) -> Rec {
        let (w, digits) = match text.split_at(1) {
            ("-", digits) => (2, digits),
            ("~", digits) => (3, digits),
            _ => return self.text(tree::NUMBER, text),
        };
        let mut prefix = Rec { w, ..self.rec(tree::PREFIX) };
        prefix.child.push(self.text(tree::NUMBER, digits));
        prefix
    }

    /// An expression whose result is at an end of a width, or where the levels part: at most three links deep.
    pub(super) fn unsigned_edge(&mut self) -> Rec {
        match self.random.below(5) {
            0 | 1 => {
                let text = self.random.pick(&RESULTS);
                self.signed_text(text)
            }
            2 => {
                let mut negation = Rec { w: 2, ..self.rec(tree::PREFIX) };
                let least = self.signed_text("~0x7fffffffffffffff");
                negation.child.push(least);
                negation
            }
            _ => {
                let (w, left, right) = self.random.pick(&EDGES);
                let mut infix = Rec { w, ..self.rec(tree::INFIX) };
                for text in [left, right] {
                    let operand = self.signed_text(text);
                    infix.child.push(operand);
                }
                infix
            }
        }
    }
}
