//! Properties, values, cells and expressions.

use super::{MOST_LINKS, Maker};
use crate::{
    inputs::OCTAL,
    records::UNSIGNED,
    tree::{self, Place, Rec},
};

const WIDTHS: [&str; 32] = [
    "8",
    "16",
    "32",
    "64",
    "8",
    "16",
    "64",
    "0x8",
    "64UL",
    "0o10",
    "7",
    "0",
    "128",
    "4294967296",
    "x",
    "0x",
    "u",
    "-8",
    "+16",
    "\u{e9}",
    "010",
    "020",
    "040",
    "0100",
    "010u",
    "0020UL",
    "08",
    "016",
    "032",
    "064",
    "0-8",
    "040000000000",
];
const STRINGS: [&str; 7] = ["", "ok", "a b", "\u{0}\n", "\u{e9}\u{10ffff}", "-", "a,b\\c"];
const BYTES: [&str; 14] = [
    "[01 02]",
    "[1]",
    "[]",
    "",
    "ab",
    "[ab]cd",
    "[a b c]",
    "[g0 z1]",
    "12]3",
    "\u{e9}12",
    "[1 2 a]",
    "]",
    "[FfAa09]",
    "[0123456789abcdef",
];
const CHARACTERS: [u32; 13] =
    [97, 0, 48, 127, 128, 255, 256, 0xd7ff, 0xe000, 0xffff, 0x1_0000, 0x10_ffff, 0x3b1];
const NUMBERS: [&str; 47] = [
    "0",
    "1",
    "2",
    "3",
    "7",
    "10",
    "0x10",
    "0X1f",
    "0b101",
    "0B1",
    "0o17",
    "0O7",
    "5u",
    "6UL",
    "7llU",
    "+5",
    "0x+5",
    "0x-5",
    "-5",
    "127",
    "128",
    "255",
    "256",
    "65535",
    "65536",
    "2147483648",
    "4294967295",
    "4294967296",
    "9223372036854775807",
    "9223372036854775808",
    "-9223372036854775808",
    "-9223372036854775809",
    "18446744073709551615",
    "18446744073709551616",
    "0xffffffffffffffff",
    "0x10000000000000000",
    "",
    "0x",
    "0b2",
    "0o8",
    "z",
    "+",
    "-",
    "256z",
    "25z",
    "u",
    "\u{e9}",
];
const OPERANDS: [&str; 16] = [
    "0",
    "1",
    "2",
    "3",
    "5",
    "63",
    "64",
    "0x7fffffffffffffff",
    "-1",
    "-9223372036854775808",
    "255",
    "256",
    "0xffffffff",
    "4294967296",
    "-128",
    "-129",
];

impl Maker {
    pub(super) fn property(&mut self, depth: u32) -> Rec {
        let mut property = self.rec(tree::PROPERTY);
        if !Self::fits(depth, 1) {
            return property;
        }
        let below = depth + 1;
        match self.random.weighted(&[20, 2, 1, 1, 2]) {
            form @ (0 | 1) => {
                let name = self.name();
                property.child.push(self.text(tree::NAME, &name));
                if form == 1 {
                    let unit = self.unit_address(below);
                    property.child.push(unit);
                }
            }
            2 => property.child.push(self.invocation()),
            3 => {}
            _ => self.any_parts(&mut property, Place::PropertyPart, below),
        }
        for _ in 0..self.random.weighted(&[3, 6, 3, 1, 1]) {
            if self.room > 0 {
                let value = self.value(below);
                property.more.push(value);
            }
        }
        property
    }

    fn value(&mut self, depth: u32) -> Rec {
        let references = if self.short { 24 } else { 6 };
        match self.random.weighted(&[1, 1, references, 1, 4, 14, 3]) {
            0 => {
                let w = 1 + self.random.below(6);
                self.directive(w as u32, depth)
            }
            1 => self.rec(tree::PREPROCESSOR),
            2 => self.reference(depth),
            3 => self.invocation(),
            4 => {
                let string = self.random.pick(&STRINGS);
                self.text(tree::STRING, string)
            }
            5 => self.cell_list(depth),
            _ => {
                let bytes = self.random.pick(&BYTES);
                self.text(tree::BYTESTRING, bytes)
            }
        }
    }

    fn cell_list(&mut self, depth: u32) -> Rec {
        let end = if self.random.once_in(5) { WIDTHS.len() } else { 4 };
        let width = if self.random.once_in(2) { "" } else { WIDTHS[self.random.below(end)] };
        let mut list = self.text(tree::CELL_LIST, width);
        if !Self::fits(depth, 1) {
            return list;
        }
        for _ in 0..self.random.weighted(&[1, 4, 4, 2, 2, 1, 1]) {
            if self.room > 0 {
                let cell = self.cell(depth + 1);
                list.child.push(cell);
            }
        }
        list
    }

    fn cell(&mut self, depth: u32) -> Rec {
        let references = if self.short { 20 } else { 5 };
        match self.random.weighted(&[1, 1, references, 1, 8, 3, 12]) {
            0 => {
                let w = 1 + self.random.below(6);
                self.directive(w as u32, depth)
            }
            1 => self.rec(tree::PREPROCESSOR),
            2 => self.reference(depth),
            3 => self.invocation(),
            4 => self.number(&NUMBERS),
            5 => self.character(),
            _ => {
                let mut cell = self.rec(tree::EXPRESSION);
                let levels = if self.random.once_in(100) { MOST_LINKS } else { self.random.below(5) as u32 };
                if self.level == UNSIGNED && Self::fits(depth, 3) && self.random.once_in(3) {
                    let edge = self.unsigned_edge();
                    cell.child.push(edge);
                } else if self.random.once_in(8) && Self::fits(depth, 3) {
                    let edge = self.edge();
                    cell.child.push(edge);
                } else {
                    self.operands(&mut cell, 1, depth, levels);
                }
                cell
            }
        }
    }

    /// An expression where it matters which operands are evaluated, or at the edge of 64 bits.
    fn edge(&mut self) -> Rec {
        let (w, texts): (u32, &[&str]) = match self.random.below(6) {
            0 => (11, &["0", "?"]),
            1 => (12, &["1", "?"]),
            2 => (19, &["0", "?", "2"]),
            3 => (19, &["1", "2", "?"]),
            4 => (self.random.pick(&[3, 4, 5]), &["-9223372036854775808", "-1"]),
            _ => (self.random.pick(&[9, 10]), &["-1", "63"]),
        };
        // Sometimes the other way about, so that what fails is evaluated.
        let flip = texts[0] != "-1" && self.random.once_in(4);
        let mut infix = Rec { w, ..self.rec(tree::INFIX) };
        for text in texts {
            let operand = match (*text, flip) {
                ("?", _) => self.failing(),
                ("0", true) => self.text(tree::NUMBER, "1"),
                ("1", true) => self.text(tree::NUMBER, "0"),
                (text, _) => self.text(tree::NUMBER, text),
            };
            infix.child.push(operand);
        }
        infix
    }

    /// An expression that fails.
    fn failing(&mut self) -> Rec {
        match self.random.below(4) {
            0 => self.invocation(),
            1 => self.text(tree::NUMBER, "z"),
            2 => self.rec(tree::PARENTHESIS),
            _ => {
                let mut division = Rec { w: self.random.pick(&[4, 5]), ..self.rec(tree::INFIX) };
                division.child.push(self.text(tree::NUMBER, "1"));
                division.child.push(self.text(tree::NUMBER, "0"));
                division
            }
        }
    }

    pub(super) fn number(&mut self, from: &[&str]) -> Rec {
        if self.random.once_in(6) {
            let bits = self.random.below(64);
            let number = (self.random.next() >> bits).wrapping_add(self.random.below(3) as u64);
            let text = match self.random.below(5) {
                0 => format!("{number}"),
                1 => format!("{number:#x}"),
                2 => format!("{number:#b}"),
                3 => format!("0{number:o}"),
                _ => format!("{number:#o}UL"),
            };
            return self.text(tree::NUMBER, &text);
        }
        let text = if self.random.once_in(10) { self.random.pick(&OCTAL) } else { self.random.pick(from) };
        self.text(tree::NUMBER, text)
    }

    fn character(&mut self) -> Rec {
        let w = self.random.pick(&CHARACTERS);
        Rec { w, ..self.rec(tree::CHARACTER) }
    }

    /// About `wanted` operands below a record at `depth`, at most `levels` deep.
    fn operands(&mut self, rec: &mut Rec, wanted: usize, depth: u32, levels: u32) {
        if !Self::fits(depth, 1) {
            return;
        }
        let wanted = match self.random.weighted(&[24, 1, 1]) {
            0 => wanted,
            1 => wanted + 1,
            _ => wanted - 1,
        };
        // One operand may go deep, so that a deep expression is not also wide.
        let main = self.random.below(wanted.max(1));
        for place in 0..wanted {
            if self.room > 0 {
                let levels = if place == main { levels } else { levels.min(2) };
                let operand = self.expression(depth + 1, levels.saturating_sub(1));
                rec.child.push(operand);
            }
        }
    }

    fn expression(&mut self, depth: u32, levels: u32) -> Rec {
        let kinds = match levels {
            _ if !Self::fits(depth, 1) => &[1, 20, 3, 0, 0, 0],
            0 => &[1, 20, 3, 0, 0, 0],
            1..6 => &[0, 2, 0, 5, 3, 9],
            _ => &[0, 0, 0, 5, 5, 5],
        };
        match self.random.weighted(kinds) {
            0 => self.invocation(),
            1 => match self.random.weighted(&[12, 2, 1]) {
                0 if self.level == UNSIGNED && Self::fits(depth, 1) => self.unsigned_operand(),
                0 => self.number(&OPERANDS),
                1 => self.number(&["0"]),
                _ => self.number(&NUMBERS),
            },
            2 => self.character(),
            3 => {
                let w = self.random.weighted(&[1, 8, 16, 12, 8]) as u32;
                let mut prefix = Rec { w, ..self.rec(tree::PREFIX) };
                self.operands(&mut prefix, 1, depth, levels);
                prefix
            }
            4 => {
                let mut parenthesis = self.rec(tree::PARENTHESIS);
                self.operands(&mut parenthesis, 1, depth, levels);
                parenthesis
            }
            _ => {
                let w = if self.random.once_in(30) { 0 } else { 1 + self.random.below(19) as u32 };
                let mut infix = Rec { w, ..self.rec(tree::INFIX) };
                self.operands(&mut infix, if w == 19 { 3 } else { 2 }, depth, levels);
                infix
            }
        }
    }
}
