//! The leaves of docs/src, asked one at a time.

use dt_tools_lowering::{
    diag::Diag,
    expr_eval::parse_int_tok,
    lowering::reach,
    mir::{self, MirCell32, MirCellList, MirPhandleTarget},
};
use dt_tools_parser::{
    ast::{AstNode, DtCellList, DtPhandle, Expr},
    cst::{NodeKind, RedItem, RedToken},
    lexer::TokenKind,
};

use crate::{
    build::{self, NOWHERE, as_node, node, token},
    codes::code_of,
    panics::{self, Outcome},
};

pub fn strip<'a>(path: &'a str, base: &str) -> Option<&'a str> {
    mir::reach::strip_base(path, base)
}

pub fn join(parent: &str, name: &str) -> String {
    reach::build_path(parent, name)
}

/// The place of the first "/" at or behind a place. A text that is no UTF-8 from there on has no `find`: there the Rust looks for the
/// byte.
pub fn next_slash(path: &[u8], from: usize) -> Option<usize> {
    let rest = path.get(from..)?;
    let found = match str::from_utf8(rest) {
        Ok(text) => text.find('/'),
        Err(_) => rest.iter().position(|byte| *byte == b'/'),
    };
    found.map(|place| from + place)
}

/// Runs something that reports at most one diagnostic: what it gives, or 01's code (0 if none).
fn coded<T>(run: impl FnOnce(&mut Diag<'_>) -> Result<T, ()>) -> Result<T, u32> {
    let mut sink = Vec::new();
    run(&mut Diag::new(&mut sink))
        .map_err(|()| sink.first().map_or(0, |diagnostic| code_of(&diagnostic.msg).0))
}

/// The kinds of integers read: 8, 16, 32 and 64 bits without sign, and 64 with one.
#[derive(Debug, Clone, Copy, PartialEq, Eq)]
pub enum Int {
    U8,
    U16,
    U32,
    U64,
    I64,
}

pub const INTS: [(&str, Int); 5] =
    [("u8", Int::U8), ("u16", Int::U16), ("u32", Int::U32), ("u64", Int::U64), ("i64", Int::I64)];

pub fn int(kind: Int, text: &str) -> Result<i128, u32> {
    let tok = &build::number_token(text, NOWHERE);
    coded(|diag| {
        Ok(match kind {
            Int::U8 => parse_int_tok::<u8>(tok, diag)?.into(),
            Int::U16 => parse_int_tok::<u16>(tok, diag)?.into(),
            Int::U32 => parse_int_tok::<u32>(tok, diag)?.into(),
            Int::U64 => parse_int_tok::<u64>(tok, diag)?.into(),
            Int::I64 => parse_int_tok::<i64>(tok, diag)?.into(),
        })
    })
}

/// The width of a cell list whose width's text this is (empty: none).
pub fn width(text: &str) -> Result<u32, u32> {
    let tok = build::number_token(text, NOWHERE);
    coded(|diag| reach::bits_size((!text.is_empty()).then_some(&tok), diag).map(u32::from))
}

/// The one number of a cell list with one cell.
fn one_cell(bits: u32, cell: RedItem) -> Result<u64, u32> {
    let list = DtCellList::cast(as_node(build::cell_list(&bits.to_string(), NOWHERE, vec![cell])));
    let list = list.expect("a cell list");
    let mut sink = Vec::new();
    let cells = reach::cells(&mut Diag::new(&mut sink), &list);
    if let Some(diagnostic) = sink.first() {
        return Err(code_of(&diagnostic.msg).0);
    }
    match cells.map_err(|()| 0u32)? {
        MirCellList::Bits8(cells) => cells.first().copied().map(u64::from),
        MirCellList::Bits16(cells) => cells.first().copied().map(u64::from),
        MirCellList::Bits32(cells) => cells.first().and_then(|cell| match cell {
            MirCell32::Number(number) => Some(u64::from(*number)),
            MirCell32::Phandle(_) => None,
        }),
        MirCellList::Bits64(cells) => cells.first().copied(),
    }
    .ok_or(0)
}

/// An expression's value in a cell of that width.
pub fn cell(bits: u32, value: i64) -> Result<u64, u32> {
    one_cell(bits, node(NodeKind::DtExpr, NOWHERE, vec![build::value(value)]))
}

/// A character in a cell of that width.
pub fn character(bits: u32, character: char) -> Result<u64, u32> {
    one_cell(bits, token(TokenKind::Char, character.encode_utf8(&mut [0; 4]), NOWHERE))
}

pub fn bytes(text: &str) -> Result<Vec<u8>, u32> {
    let tok = RedToken::new(TokenKind::DtBytestring, text, NOWHERE);
    coded(|diag| reach::bytestring(diag, &tok))
}

/// What a raw reference `&{..}` names.
pub fn reference(raw: &str) -> Option<MirPhandleTarget> {
    let raw = token(TokenKind::LCurly, raw, NOWHERE);
    let phandle = DtPhandle::cast(as_node(node(NodeKind::DtPhandle, NOWHERE, vec![raw])));
    coded(|diag| reach::lower_phandle(diag, &phandle.expect("a reference"))).ok()
}

fn evaluated(expr: RedItem) -> Outcome {
    panics::outcome(&Expr::cast(as_node(expr)).expect("an expression"))
}

pub fn prefix(op: u32, operand: i64) -> Outcome {
    evaluated(build::prefix(op, NOWHERE, vec![build::value(operand)]))
}

pub fn infix(op: u32, operands: &[i64]) -> Outcome {
    evaluated(build::infix(op, NOWHERE, operands.iter().map(|value| build::value(*value)).collect()))
}
