//! Our sources read as Rust, their proofs left out, against the Rust judge: to find faults before
//! there is a proof. A number limits the cases for each leaf; `whole` compares lowering and queries.
//! OURS_CRATES names another folder of crates, as a copy with a fault in it.

include!(concat!(env!("OUT_DIR"), "/modules.rs"));

mod whole;

use std::{env, process::ExitCode};

use judge::{
    answer::Target,
    leaves::Int,
    ours::{Leaves, in_room},
    panics, parts,
};
use paths_numbers::{
    dt_node::{self, Joined},
    dt_property::{self, BitsSize, BytesError, CellError, MissingDigit, SizeError},
    expr_eval::{self, IntErrorKind},
    mir,
    operators::{self, EvalError},
    phandle,
};
use slashes::slash;

fn main() -> ExitCode {
    panics::install_hook();
    let words: Vec<String> = env::args().skip(1).collect();
    let words: Vec<&str> = words.iter().map(String::as_str).collect();
    let number = |text: &str| text.parse::<u64>().map_err(|_| format!("{text} is not a number"));
    let result = match words[..] {
        [] => leaves(u64::MAX),
        ["whole"] => whole::compare(0, 20_000),
        ["whole", from, cases] => number(from).and_then(|from| whole::compare(from, number(cases)?)),
        [most] => number(most).and_then(leaves),
        _ => Err("usage: run unproved [CASES] | whole [FROM CASES]".to_owned()),
    };
    match result {
        Ok(()) => ExitCode::SUCCESS,
        Err(message) => {
            eprintln!("{message}");
            ExitCode::FAILURE
        }
    }
}

/// The leaves and box numbers, at most so many inputs of each.
fn leaves(most: u64) -> Result<(), String> {
    (parts::leaves(&ours(), most)? + whole::compare_boxes(most)).closing()
}

fn ours() -> Leaves {
    Leaves {
        strip: Some(|path, base| {
            mir::lies_under(path, base).then(|| path.len() - mir::strip_base(path, base).len())
        }),
        join: Some(|parent, name, unit| {
            let path = Joined { parent, name, unit };
            in_room(dt_node::path_len(path), &|out| dt_node::build_path(path, out, 2))
        }),
        against_joined: Some(|this, parent, name, unit| {
            let path = Joined { parent, name, unit };
            [
                dt_node::is_path(this, path),
                dt_node::lies_under_path(this, path),
                dt_node::path_lies_under(path, this),
            ]
        }),
        is_path: Some(mir::good_path),
        next_slash: Some(slash::next_slash),
        int: Some(int),
        width: Some(|text| match BitsSize::from_token(text) {
            Ok(size) => Ok(size.bits()),
            Err(SizeError::Unsupported) => Err(12),
            Err(SizeError::Int(error)) => Err(code(error)),
        }),
        cell: Some(|bits, value| cell(dt_property::expr_cell(value, size(bits)))),
        character: Some(|bits, point| cell(dt_property::char_cell(point, size(bits)))),
        bytes: Some(|text| match dt_property::bytestring_len(text) {
            Err(MissingDigit) => Err(missing_digit(text)),
            Ok(length) => Ok(in_room(length, &|out| dt_property::lower_bytestring(text, out, 2).ok())),
        }),
        prefix: Some(|op, operand| evaluated(operators::eval_prefix(op, operand))),
        infix: Some(|op, left, right| evaluated(operators::eval_infix(op, left, right))),
        conditional: Some(operators::eval_conditional),
        reference: Some(|raw| {
            phandle::lower_phandle(raw).map(|kind| Target {
                form: u32::from(kind),
                label: phandle::phandle_label(raw).to_vec(),
                path: phandle::phandle_path(raw).to_vec(),
            })
        }),
    }
}

fn size(bits: u32) -> BitsSize {
    match bits {
        8 => BitsSize::Bits8,
        16 => BitsSize::Bits16,
        32 => BitsSize::Bits32,
        _ => BitsSize::Bits64,
    }
}

fn code(error: IntErrorKind) -> u32 {
    match error {
        IntErrorKind::Empty => 16,
        IntErrorKind::InvalidDigit => 17,
        IntErrorKind::PosOverflow => 18,
        IntErrorKind::NegOverflow => 19,
    }
}

fn int(kind: Int, text: &[u8]) -> Result<i128, u32> {
    let unsigned = |size| expr_eval::parse_int_tok(text, size).map(i128::from).map_err(code);
    match kind {
        Int::U8 => unsigned(BitsSize::Bits8),
        Int::U16 => unsigned(BitsSize::Bits16),
        Int::U32 => unsigned(BitsSize::Bits32),
        Int::U64 => unsigned(BitsSize::Bits64),
        Int::I64 => expr_eval::parse_int_tok_i64(text).map(i128::from).map_err(code),
    }
}

/// The code of a missing digit, where writing the bytestring finds it too, though there is room.
fn missing_digit(text: &[u8]) -> u32 {
    match dt_property::lower_bytestring(text, &mut vec![7; text.len()], 0) {
        Err(BytesError::MissingDigit) => 11,
        _ => u32::MAX,
    }
}

fn cell(cell: Result<u64, CellError>) -> Result<u64, u32> {
    cell.map_err(|error| match error {
        CellError::CharTooLarge => 13,
        CellError::ExprOutside => 15,
    })
}

fn evaluated(evaluated: Result<i64, EvalError>) -> Result<i64, u32> {
    evaluated.map_err(|error| match error {
        EvalError::Outside => 24,
        EvalError::ZeroDivisor => 25,
        EvalError::ShiftAmount => 26,
        EvalError::Missing => 0,
    })
}
