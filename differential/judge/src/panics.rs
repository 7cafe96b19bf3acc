//! Expressions on which the Rust panics: which operator it is, and 01's code for it.

use std::{
    cell::Cell,
    panic::{self, AssertUnwindSafe},
};

use dt_tools_lowering::{diag::Diag, expr_eval};
use dt_tools_parser::{
    TextRange,
    ast::{AstNode, Expr},
    lexer::TokenKind,
};

use crate::codes::code_of;

thread_local! {
    static LAST: Cell<Option<u32>> = const { Cell::new(None) };
    static QUIET: Cell<bool> = const { Cell::new(false) };
}

/// What evaluating gives: a value, a code, a failure without code, or a panic with 01's code.
#[derive(Debug, Clone, Copy, PartialEq, Eq)]
pub enum Outcome {
    Value(i64),
    Code(u32),
    Fails,
    Panics(u32),
}

/// Panics inside `outcome` print nothing and leave their code; others are shown as usual.
pub fn install_hook() {
    let usual = panic::take_hook();
    panic::set_hook(Box::new(move |info| {
        if QUIET.get() {
            LAST.set(info.payload().downcast_ref::<&str>().copied().and_then(code_of_panic));
        } else {
            usual(info);
        }
    }));
}

/// 01's rule for the Rust's arithmetic panics.
fn code_of_panic(message: &str) -> Option<u32> {
    if message.contains("zero") {
        Some(25)
    } else if message.contains("shift") {
        Some(26)
    } else if message.contains("with overflow") {
        Some(24)
    } else {
        None
    }
}

/// Evaluates with the Rust.
pub fn outcome(expr: &Expr) -> Outcome {
    let mut sink = Vec::new();
    LAST.set(None);
    QUIET.set(true);
    let result =
        panic::catch_unwind(AssertUnwindSafe(|| expr_eval::eval(expr.clone(), &mut Diag::new(&mut sink))));
    QUIET.set(false);
    match (result, sink.first()) {
        (Ok(Ok(value)), None) => Outcome::Value(value),
        (Ok(Err(())), None) => Outcome::Fails,
        (Ok(Err(())), Some(diagnostic)) => Outcome::Code(code_of(&diagnostic.msg).0),
        (Err(_), None) => Outcome::Panics(LAST.get().expect("an arithmetic panic")),
        _ => panic!("an expression with both a value or a panic and a diagnostic"),
    }
}

/// If evaluating panics: the range of the operator that does, and 01's code.
pub fn panicking(expr: &Expr) -> Option<(TextRange, u32)> {
    let Outcome::Panics(code) = outcome(expr) else {
        return None;
    };
    let operands: Vec<Expr> = expr.syntax().child_nodes().filter_map(Expr::cast).collect();
    let used: &[usize] = match (expr, operands.first().map(outcome)) {
        (Expr::InfixExpr(infix), Some(Outcome::Value(condition)))
            if infix.syntax().child_tokens().any(|token| token.green.kind == TokenKind::QuestionMark) =>
        {
            if condition != 0 {
                &[1]
            } else {
                &[2]
            }
        }
        (Expr::InfixExpr(_), _) => &[0, 1],
        _ => &[0],
    };
    used.iter()
        .find_map(|operand| panicking(&operands[*operand]))
        .or(Some((expr.syntax().text_range(), code)))
}
