//! Small pieces of the stand-in tree.

use std::sync::Arc;

use dt_tools_parser::{
    TextRange,
    cst::{NodeKind, RedItem, RedNode, RedToken, TreeItem},
    lexer::TokenKind,
};

use crate::octal;

pub const NOWHERE: TextRange = TextRange { start: 0, end: 0, origin: 0 };

pub fn token(kind: TokenKind, text: &str, range: TextRange) -> RedItem {
    TreeItem::Token(RedToken::new(kind, text, range))
}

/// The token of a number's text, which is octal as 02 has it.
pub fn number_token(text: &str, range: TextRange) -> RedToken {
    RedToken::new(TokenKind::Number, &octal::for_the_rust(text), range)
}

pub fn node(kind: NodeKind, range: TextRange, children: Vec<RedItem>) -> RedItem {
    TreeItem::Node(RedNode::new(kind, range, children))
}

pub fn as_node(item: RedItem) -> Arc<RedNode> {
    item.into_node().expect("a node")
}

/// The tokens of 01's prefix operators, by W.
pub const PREFIX: [TokenKind; 4] =
    [TokenKind::Plus, TokenKind::Minus, TokenKind::BitwiseNot, TokenKind::LogicalNot];

/// The tokens of 01's infix operators, by W.
pub const INFIX: [TokenKind; 19] = [
    TokenKind::Plus,
    TokenKind::Minus,
    TokenKind::Asterisk,
    TokenKind::Slash,
    TokenKind::Modulo,
    TokenKind::Ampersand,
    TokenKind::BitwiseOr,
    TokenKind::BitwiseXor,
    TokenKind::BitwiseShl,
    TokenKind::BitwiseShr,
    TokenKind::LogicalAnd,
    TokenKind::LogicalOr,
    TokenKind::LAngle,
    TokenKind::RAngle,
    TokenKind::RelationalLtEq,
    TokenKind::RelationalGtEq,
    TokenKind::RelationalEq,
    TokenKind::RelationalNeq,
    TokenKind::QuestionMark,
];

/// A literal with a number.
pub fn number(text: &str, range: TextRange) -> RedItem {
    node(NodeKind::LiteralExpr, range, vec![TreeItem::Token(number_token(text, range))])
}

/// Prefix operator W (0: none) over operands.
pub fn prefix(w: u32, range: TextRange, operands: Vec<RedItem>) -> RedItem {
    let mut children = Vec::new();
    if w != 0 {
        children.push(token(TokenKind::Whitespace, " ", NOWHERE));
        children.push(token(PREFIX[w as usize - 1], "", NOWHERE));
    }
    children.extend(operands);
    node(NodeKind::PrefixExpr, range, children)
}

/// Infix operator W (0: none) between operands.
pub fn infix(w: u32, range: TextRange, operands: Vec<RedItem>) -> RedItem {
    let mut children = Vec::new();
    for (place, operand) in operands.into_iter().enumerate() {
        if place == 2 && w == 19 {
            children.push(token(TokenKind::Colon, ":", NOWHERE));
        }
        children.push(operand);
        if place == 0 && w != 0 {
            children.push(token(TokenKind::Whitespace, " ", NOWHERE));
            children.push(token(INFIX[w as usize - 1], "", NOWHERE));
        }
    }
    if w != 0 && children.is_empty() {
        children.push(token(INFIX[w as usize - 1], "", NOWHERE));
    }
    node(NodeKind::InfixExpr, range, children)
}

/// An expression that has this value: a literal, a minus before one, or ~ before one.
pub fn value(value: i64) -> RedItem {
    if value >= 0 {
        number(&value.to_string(), NOWHERE)
    } else if value == i64::MIN {
        prefix(3, NOWHERE, vec![number(&i64::MAX.to_string(), NOWHERE)])
    } else {
        prefix(2, NOWHERE, vec![number(&value.unsigned_abs().to_string(), NOWHERE)])
    }
}

/// A cell list with its width's text (empty: none).
pub fn cell_list(width: &str, range: TextRange, cells: Vec<RedItem>) -> RedItem {
    let mut children = Vec::new();
    if !width.is_empty() {
        let bits = TreeItem::Token(number_token(width, range));
        let directive = token(TokenKind::BitsDirective, "/bits/", range);
        children.push(node(NodeKind::DtsDirective, range, vec![directive, bits]));
    }
    children.extend(cells);
    node(NodeKind::DtCellList, range, children)
}
