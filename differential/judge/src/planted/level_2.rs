//! Faults at level 2. A wrong operator or rule is planted by lowering another description, in which each
//! expression that the fault touches is put in other words, with the same spans.

use super::{By, Fault, lower, slips::rewritten};
use crate::{
    by_01::{rows, values},
    by_02::level_2,
    output,
    random::Random,
    records::{self, Layout, Order, RECORD, Records, SIGNED, UNSIGNED},
    tree::{self, Rec},
};

pub static FAULTS: [Fault; 14] = [
    ("level 2: level 1 is taken", By::Level2, |records, words, bytes| {
        lower(&Records { level: records.level.min(SIGNED), ..records.clone() }, words, bytes)
    }),
    ("level 2: a signed comparison", By::Level2, |records, words, bytes| {
        reworded(records, words, bytes, |rec| if matches!(infix(&rec), 13..=16) { turned(rec) } else { rec })
    }),
    ("level 2: >> keeps the sign", By::Level2, |records, words, bytes| {
        reworded(records, words, bytes, |rec| if infix(&rec) == 10 { sign_kept(&rec) } else { rec })
    }),
    ("level 2: a shift amount of 64 is taken as 0", By::Level2, |records, words, bytes| {
        reworded(records, words, bytes, |rec| if infix(&rec) == 9 { amount_cut(rec) } else { rec })
    }),
    ("level 2: a literal with a minus is read", By::Level2, |records, words, bytes| {
        reworded(records, words, bytes, minus_read)
    }),
    ("level 2: code 24 for what level 1 gives it", By::Level2, overflows),
    ("level 2: a cell keeps what is below its signed width", By::Level2, |records, words, bytes| {
        reworded(records, words, bytes, |rec| if rec.kind == tree::CELL_LIST { cells_cut(rec) } else { rec })
    }),
    ("level 2: && evaluates both operands", By::Level2, |records, words, bytes| {
        reworded(records, words, bytes, |rec| if infix(&rec) == 11 { both_evaluated(&rec) } else { rec })
    }),
    ("levels: number cells are read as expressions", By::Alike, |records, words, bytes| {
        reworded(records, words, bytes, numbers_as_expressions)
    }),
    ("levels: the same log in other records at level 2", By::Alike, |records, words, bytes| {
        match records.level {
            UNSIGNED => rewritten(records, words, bytes, |_, _| {}),
            _ => lower(records, words, bytes),
        }
    }),
    ("pairs: level 1 is taken for 2 by every other deletion", By::Pairs, |records, words, bytes| {
        let deletions =
            records.words.chunks(RECORD).filter(|record| record[0] == tree::DIRECTIVE && record[5] == 4);
        let level = if deletions.count() % 2 == 1 { SIGNED } else { records.level };
        lower(&Records { level, ..records.clone() }, words, bytes)
    }),
    ("levels: 3 is taken for 2", By::Rows, |records, words, bytes| {
        let level = if records.level == 3 { UNSIGNED } else { records.level };
        lower(&Records { level, ..records.clone() }, words, bytes)
    }),
    ("levels: 18 behind rows 1 to 6", By::Rows, |records, words, bytes| {
        match rows::refusal(&Records { level: SIGNED, ..records.clone() }) {
            Some(refusal) => refusal,
            None => lower(records, words, bytes),
        }
    }),
    ("levels: 18 clears the buffers", By::Rows, |records, words, bytes| {
        let answer = lower(records, words, bytes);
        if answer.0 == rows::NO_LEVEL {
            bytes.fill(0);
        }
        answer
    }),
];

/// W of an infix; 0 of other kinds.
fn infix(rec: &Rec) -> u32 {
    if rec.kind == tree::INFIX { rec.w } else { 0 }
}

/// Lowers at level 2 the description with each record as `change` has it; what is refused then as it is.
fn reworded(records: &Records, words: &mut [u32], bytes: &mut [u8], change: fn(Rec) -> Rec) -> (u32, u32) {
    if records.level != UNSIGNED || rows::refusal(records).is_some() {
        return lower(records, words, bytes);
    }
    let top = changed(records::read(records), change);
    let layout = Layout { order: Order::Down, shared: true, noise: false };
    let other = records::write(&top, UNSIGNED, layout, &mut Random::new(0));
    let other = Records { starts: records.starts.clone(), ..other };
    let records = if rows::refusal(&other).is_none() { &other } else { records };
    lower(records, words, bytes)
}

/// A chain with each record changed, those below it first.
fn changed(chain: Vec<Rec>, change: fn(Rec) -> Rec) -> Vec<Rec> {
    let one = |rec: Rec| {
        let (child, more) = (changed(rec.child, change), changed(rec.more, change));
        change(Rec { child, more, ..rec })
    };
    chain.into_iter().map(one).collect()
}

fn number(value: u64) -> Rec {
    Rec { kind: tree::NUMBER, text: value.to_string().into_bytes(), ..Rec::default() }
}

/// An operator over operands, with the span of a record.
fn over(at: &Rec, kind: u32, w: u32, child: &[&Rec]) -> Rec {
    Rec { kind, w, span: at.span, child: child.iter().copied().cloned().collect(), ..Rec::default() }
}

/// An infix whose operands have their highest bit turned.
fn turned(rec: Rec) -> Rec {
    let high = number(1 << 63);
    let child = rec.child.iter().map(|operand| over(&rec, tree::INFIX, 8, &[operand, &high])).collect();
    Rec { child, ..rec }
}

/// a >> b as (a >> 63) ? ~(~a >> b) : a >> b.
fn sign_kept(rec: &Rec) -> Rec {
    let [left, right] = &rec.child[..] else { return rec.clone() };
    let sign = over(rec, tree::INFIX, 10, &[left, &number(63)]);
    let other = over(rec, tree::PREFIX, 3, &[left]);
    let other = over(rec, tree::PREFIX, 3, &[&over(rec, tree::INFIX, 10, &[&other, right])]);
    over(rec, tree::INFIX, 19, &[&sign, &other, rec])
}

/// a << b as a << b % 64.
fn amount_cut(mut rec: Rec) -> Rec {
    if let [_, right] = &rec.child[..] {
        rec.child[1] = over(right, tree::INFIX, 5, &[right, &number(64)]);
    }
    rec
}

/// -1 as a literal's text as a minus over 1.
fn minus_read(rec: Rec) -> Rec {
    match rec.text.strip_prefix(b"-") {
        Some(digits) if rec.kind == tree::NUMBER => {
            let literal = Rec { text: digits.to_vec(), ..rec.clone() };
            over(&rec, tree::PREFIX, 2, &[&literal])
        }
        _ => rec,
    }
}

/// Level 1's log where that has a code 24.
fn overflows(records: &Records, words: &mut [u32], bytes: &mut [u8]) -> (u32, u32) {
    let answer = lower(&Records { level: SIGNED, ..records.clone() }, words, bytes);
    let log = output::read(words, bytes);
    if answer.0 == 0 && log.is_ok_and(|log| log.answer.lowering.iter().any(|found| found.code == 24)) {
        return answer;
    }
    lower(records, words, bytes)
}

/// A list whose expression cells keep the low bits where those above the width are all ones.
fn cells_cut(mut list: Rec) -> Rec {
    let Ok(bits @ (8 | 16 | 32)) = values::width(&list.text) else { return list };
    for cell in list.child.iter_mut().filter(|cell| cell.kind == tree::EXPRESSION) {
        if let Some(Ok(result)) = cell.child.first().map(level_2::value)
            && result >> bits == u64::MAX >> bits
        {
            cell.child = vec![number(result & ((1 << bits) - 1))];
        }
    }
    list
}

/// a && b as !!a & !!b.
fn both_evaluated(rec: &Rec) -> Rec {
    let [left, right] = &rec.child[..] else { return rec.clone() };
    let truth = over(rec, tree::PREFIX, 4, &[&over(rec, tree::PREFIX, 4, &[left])]);
    let other = over(rec, tree::PREFIX, 4, &[&over(rec, tree::PREFIX, 4, &[right])]);
    over(rec, tree::INFIX, 6, &[&truth, &other])
}

/// A list whose number cells are expression cells.
fn numbers_as_expressions(mut rec: Rec) -> Rec {
    if rec.kind == tree::CELL_LIST {
        for cell in rec.child.iter_mut().filter(|cell| cell.kind == tree::NUMBER) {
            *cell = over(cell, tree::EXPRESSION, 0, &[cell]);
        }
    }
    rec
}
