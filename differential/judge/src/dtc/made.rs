//! Random expressions that can be written for dtc.

use super::{Question, seen, source};
use crate::{
    random::Random,
    tree::{self, Rec},
};

/// Exponents near whose powers operands are taken more often.
const POWERS: [u32; 9] = [0, 6, 7, 8, 15, 16, 31, 32, 63];

/// The question of a seed.
pub fn question(seed: u64) -> Question {
    let mut maker = Maker(Random::new(seed));
    let bits = maker.0.pick(&[8, 16, 32, 64]);
    let expression = match maker.0.weighted(&[8, 4, 4, 1]) {
        0 => {
            let levels = 1 + maker.0.below(5);
            maker.expression(levels)
        }
        1 => maker.at_limit(bits),
        2 => maker.narrow(bits),
        _ => maker.not_needed(),
    };
    let cell = of(tree::EXPRESSION, 0, vec![expression]);
    Question { bits, source: source(&cell), cell }
}

/// A record with operands.
pub fn of(kind: u32, w: u32, child: Vec<Rec>) -> Rec {
    Rec { kind, w, child, ..Rec::default() }
}

/// A number's record by its text.
pub fn literal(text: &str) -> Rec {
    Rec { kind: tree::NUMBER, text: text.into(), ..Rec::default() }
}

struct Maker(Random);

impl Maker {
    /// A number written in some base with some suffix.
    fn number(&mut self, value: u64) -> Rec {
        let suffix = if self.0.once_in(2) { "" } else { self.0.pick(&seen::SUFFIXES) };
        literal(&match self.0.below(5) {
            0 | 1 => format!("{value}{suffix}"),
            2 => format!("{value:#x}{suffix}"),
            3 => format!("0X{value:X}{suffix}"),
            _ => format!("0{value:o}{suffix}"),
        })
    }

    /// A number near a power of 2 or its negative, small, or any.
    fn value(&mut self) -> u64 {
        let near = (1u64 << self.0.pick(&POWERS)).wrapping_add(self.0.below(3) as u64).wrapping_sub(1);
        match self.0.weighted(&[6, 4, 3, 2]) {
            0 => near,
            1 => near.wrapping_neg(),
            2 => 1 + self.0.below(10) as u64,
            _ => self.any(),
        }
    }

    /// Any number, of any length.
    fn any(&mut self) -> u64 {
        let bits = self.0.below(64);
        self.0.next() >> bits
    }

    fn operand(&mut self) -> Rec {
        if self.0.once_in(8) {
            let point = if self.0.once_in(2) { 32 + self.0.below(95) } else { self.0.below(256) };
            return of(tree::CHARACTER, point as u32, Vec::new());
        }
        let value = self.value();
        self.number(value)
    }

    /// An expression of at most so many operators above each other.
    fn expression(&mut self, levels: usize) -> Rec {
        if levels == 0 || self.0.once_in(8) {
            return self.operand();
        }
        let left = self.expression(levels - 1);
        match self.0.weighted(&[5, 1, 18]) {
            0 => of(tree::PREFIX, 2 + self.0.below(3) as u32, vec![left]),
            1 => of(tree::PARENTHESIS, 0, vec![left]),
            _ => {
                let w = 1 + self.0.below(19) as u32;
                let mut child = vec![left, self.right(w, levels - 1)];
                if w == 19 {
                    child.push(self.expression(levels - 1));
                }
                of(tree::INFIX, w, child)
            }
        }
    }

    /// A right operand: a shift's amount is mostly below 64, a divisor is seldom evaluated to 0.
    fn right(&mut self, w: u32, levels: usize) -> Rec {
        let value = match (w, self.0.below(8)) {
            (9 | 10, 0) => self.amount(),
            (9 | 10, 1..7) => self.0.below(64) as u64,
            (4 | 5, 0..6) => self.value().max(1),
            _ => return self.expression(levels),
        };
        self.number(value)
    }

    /// An amount that no shift takes.
    fn amount(&mut self) -> u64 {
        let far = self.any().max(64);
        self.0.pick(&[64, 65, 127, 128, 1 << 32, (1 << 32) + 1, 1 << 63, u64::MAX, u64::MAX - 63, far])
    }

    /// An expression whose value is at a limit of the width, or beside it.
    fn at_limit(&mut self, bits: u32) -> Rec {
        let limits = seen::limits(bits);
        let beside = self.0.pick(&[0, 0, 0, 1, u64::MAX]);
        let value = limits[self.0.below(limits.len())].1.wrapping_add(beside);
        let other = self.value();
        let infix = |w, left, right| of(tree::INFIX, w, vec![left, right]);
        match self.0.below(7) {
            0 => infix(1, self.number(value.wrapping_sub(other)), self.number(other)),
            1 => infix(2, self.number(value.wrapping_add(other)), self.number(other)),
            2 => infix(8, self.number(value ^ other), self.number(other)),
            3 => infix(7, self.number(value & other), self.number(value & !other)),
            4 => of(tree::PREFIX, 2, vec![self.number(value.wrapping_neg())]),
            5 => of(tree::PREFIX, 3, vec![self.number(!value)]),
            _ => self.number(value),
        }
    }

    /// An expression whose value fits the width.
    fn narrow(&mut self, bits: u32) -> Rec {
        let mask = u64::MAX >> (64 - bits);
        let inner = self.expression(4);
        let infix = |w, left, right| of(tree::INFIX, w, vec![left, right]);
        match self.0.below(6) {
            0 => infix(6, inner, self.number(mask)),
            1 => infix(5, inner, self.number(mask)),
            2 => infix(10, inner, self.number(64 - u64::from(bits.min(63)))),
            3 => of(tree::PREFIX, 2, vec![infix(6, inner, self.number(mask >> 1))]),
            4 => of(tree::PREFIX, 3, vec![infix(6, inner, self.number(mask >> 1))]),
            _ => infix(self.0.pick(&[11, 12, 13, 14, 15, 16, 17, 18]), inner, self.expression(3)),
        }
    }

    /// An expression with an operand that fails, mostly one that is not needed.
    fn not_needed(&mut self) -> Rec {
        let (w, amount) = (self.0.pick(&[4, 5, 9, 10]), self.amount());
        let right = if w < 9 { 0 } else { amount };
        let failing = of(tree::INFIX, w, vec![self.expression(1), self.number(right)]);
        let (good, needed) = (self.expression(1), self.0.once_in(4));
        let mut test = |holds: bool| if holds { self.number(1) } else { self.number(0) };
        match w.wrapping_add(amount as u32) % 4 {
            0 => of(tree::INFIX, 11, vec![test(needed), failing]),
            1 => of(tree::INFIX, 12, vec![test(!needed), failing]),
            2 => of(tree::INFIX, 19, vec![test(!needed), good, failing]),
            _ => of(tree::INFIX, 19, vec![test(needed), failing, good]),
        }
    }
}
