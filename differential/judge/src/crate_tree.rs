//! A description as the tree that docs/src lowers.
//!
//! At level 1 three things are put in other words, so that the Rust can judge what 01 and 02 say where the Rust alone
//! could not: an octal number has `0o` in front (`octal`), a directive as a cell (which `ast.rs` skips) is
//! shown as a preprocessor conditional, and an expression on which the Rust panics as a macro with the
//! range of the operator that does. The diagnostics of the last two are known by their origin and get
//! 01's codes.
//!
//! At level 2 the Rust is not asked for an expression cell whose list has a good width: it is shown what 02's
//! sentences give (`level_2`), as a number that it stores, as a macro at the range of the diagnostic
//! that is due, or as an expression without operand, of which it is silent.

use std::{collections::BTreeMap, sync::Arc};

use dt_tools_parser::{
    TextRange,
    ast::{AstNode, Expr},
    cst::{NodeKind, RedItem, RedNode, TreeItem},
    lexer::TokenKind,
};

use crate::{
    answer::Diagnosis,
    build::{self, NOWHERE, as_node, node, number_token, token},
    by_01::values,
    by_02::level_2,
    panics,
    records::UNSIGNED,
    tree::{self, Rec, Span},
};

/// The tree, and 01's code for the diagnostics of each origin that is shown in other words.
pub struct CrateTree {
    pub root: Arc<RedNode>,
    pub codes: BTreeMap<u32, u32>,
}

/// Builds the tree for a level. `look` varies what 01's records do not tell apart.
pub fn crate_tree(top: &[Rec], level: u32, look: u64) -> CrateTree {
    let mut builder = Builder { origin: 0, level, bits: None, look, codes: BTreeMap::new() };
    let items = builder.each(top, Builder::item);
    CrateTree { root: RedNode::new(NodeKind::SourceFile, NOWHERE, items), codes: builder.codes }
}

struct Builder {
    /// Counts records in the order of the walk.
    origin: u32,
    level: u32,
    /// The width of the cell list at hand, where level 2 answers its expressions.
    bits: Option<u32>,
    look: u64,
    codes: BTreeMap<u32, u32>,
}

fn text(rec: &Rec) -> &str {
    std::str::from_utf8(&rec.text).expect("the Rust's texts are UTF-8")
}

impl Builder {
    fn range(&mut self, span: Span) -> TextRange {
        self.origin += 1;
        TextRange { start: span.0 as usize, end: span.1 as usize, origin: self.origin }
    }

    /// Yes or no, different from one place of the tree to the next.
    fn looks(&self) -> bool {
        (self.look ^ u64::from(self.origin).wrapping_mul(0x9e37_79b9_7f4a_7c15)).count_ones() % 2 == 1
    }

    fn each(&mut self, recs: &[Rec], build: fn(&mut Self, &Rec) -> RedItem) -> Vec<RedItem> {
        recs.iter().map(|rec| build(self, rec)).collect()
    }

    fn item(&mut self, rec: &Rec) -> RedItem {
        match rec.kind {
            tree::NODE => {
                let range = self.range(rec.span);
                let mut children = self.each(&rec.child, Self::part);
                children.extend(self.each(&rec.more, Self::item));
                node(NodeKind::DtNode, range, children)
            }
            tree::PROPERTY => {
                let range = self.range(rec.span);
                let mut children = self.each(&rec.child, Self::part);
                if !rec.more.is_empty() || self.looks() {
                    let values = self.each(&rec.more, Self::value);
                    children.push(node(NodeKind::PropValueList, NOWHERE, values));
                }
                node(NodeKind::DtProperty, range, children)
            }
            tree::DIRECTIVE => self.directive(rec),
            _ => self.preprocessor(rec),
        }
    }

    fn directive(&mut self, rec: &Rec) -> RedItem {
        let range = self.range(rec.span);
        let kind = match rec.w {
            1 => Some(TokenKind::V1Directive),
            2 => Some(TokenKind::PluginDirective),
            3 => Some(TokenKind::DtIncludeDirective),
            4 => Some(TokenKind::DeleteNodeDirective),
            5 => Some(TokenKind::DeletePropertyDirective),
            _ if self.looks() => Some(TokenKind::MemreserveDirective),
            _ => None,
        };
        let mut children: Vec<RedItem> = kind.map(|kind| token(kind, "", NOWHERE)).into_iter().collect();
        if !rec.child.is_empty() || self.looks() {
            let parts = self.each(&rec.child, Self::part);
            children.push(node(NodeKind::DtsDirectiveArguments, NOWHERE, parts));
        }
        node(NodeKind::DtsDirective, range, children)
    }

    fn preprocessor(&mut self, rec: &Rec) -> RedItem {
        let range = self.range(rec.span);
        if self.looks() {
            token(TokenKind::PreprocessorDirective, "#if", range)
        } else {
            node(NodeKind::PreprocessorConditional, range, Vec::new())
        }
    }

    fn part(&mut self, rec: &Rec) -> RedItem {
        let range = self.range(rec.span);
        match rec.kind {
            tree::NAME => token(TokenKind::Name, text(rec), range),
            tree::UNIT_ADDRESS => node(NodeKind::UnitAddress, range, self.each(&rec.child, Self::part)),
            tree::LABEL => node(NodeKind::DtLabel, range, self.each(&rec.child, Self::part)),
            tree::REFERENCE => self.reference(rec, range),
            tree::MACRO => self.invocation(rec, range),
            tree::SLASH => token(TokenKind::Slash, "/", range),
            _ => token(TokenKind::OmitIfNoRefDirective, "/omit-if-no-ref/", range),
        }
    }

    fn reference(&mut self, rec: &Rec, range: TextRange) -> RedItem {
        let mut children = Vec::new();
        if rec.w == 1 {
            children.push(token(TokenKind::LCurly, text(rec), NOWHERE));
        } else {
            children.push(token(TokenKind::Ampersand, "&", NOWHERE));
            if !rec.text.is_empty() {
                children.push(token(TokenKind::Name, text(rec), NOWHERE));
            }
        }
        children.extend(self.each(&rec.child, Self::part));
        node(NodeKind::DtPhandle, range, children)
    }

    /// A macro without a name has the text `<unknown>` for the Rust.
    fn invocation(&mut self, rec: &Rec, range: TextRange) -> RedItem {
        let ident =
            (rec.text != b"<unknown>" || self.looks()).then(|| token(TokenKind::Ident, text(rec), NOWHERE));
        node(NodeKind::MacroInvocation, range, ident.into_iter().collect())
    }

    fn value(&mut self, rec: &Rec) -> RedItem {
        match rec.kind {
            tree::DIRECTIVE => self.directive(rec),
            tree::PREPROCESSOR => self.preprocessor(rec),
            tree::REFERENCE | tree::MACRO => self.part(rec),
            tree::CELL_LIST => {
                let range = self.range(rec.span);
                self.bits = values::width(&rec.text).ok().filter(|_| self.level == UNSIGNED);
                let cells = self.each(&rec.child, Self::cell);
                build::cell_list(text(rec), range, cells)
            }
            tree::STRING => token(TokenKind::String, text(rec), self.range(rec.span)),
            _ => token(TokenKind::DtBytestring, text(rec), self.range(rec.span)),
        }
    }

    fn cell(&mut self, rec: &Rec) -> RedItem {
        match rec.kind {
            tree::DIRECTIVE => {
                let range = self.range(rec.span);
                self.codes.insert(range.origin, 9);
                node(NodeKind::PreprocessorConditional, range, Vec::new())
            }
            tree::PREPROCESSOR => self.preprocessor(rec),
            tree::REFERENCE | tree::MACRO => self.part(rec),
            tree::EXPRESSION => match self.bits {
                Some(bits) => self.answered(bits, rec),
                None => {
                    let range = self.range(rec.span);
                    let mut children = self.each(&rec.child, Self::expression);
                    self.replace_panicking(&mut children);
                    node(NodeKind::DtExpr, range, children)
                }
            },
            _ => self.literal(rec),
        }
    }

    /// An expression cell as level 2 answers it.
    fn answered(&mut self, bits: u32, cell: &Rec) -> RedItem {
        let range = self.range(cell.span);
        let shown = match level_2::cell(bits, cell) {
            Ok(number) => return TreeItem::Token(number_token(&number.to_string(), range)),
            Err(found) => found.map(|found| self.shown(found)),
        };
        node(NodeKind::DtExpr, range, shown.into_iter().collect())
    }

    /// A diagnostic as the macro that has it: the Rust's own for code 10, else known by its origin.
    fn shown(&mut self, Diagnosis { code, text, span, .. }: Diagnosis) -> RedItem {
        let range = self.range(span);
        if code != 10 {
            self.codes.insert(range.origin, code);
        }
        self.invocation(&Rec { kind: tree::MACRO, text, span, ..Rec::default() }, range)
    }

    fn replace_panicking(&mut self, children: &mut [RedItem]) {
        let Some(first) = children.first_mut() else { return };
        let expr = Expr::cast(as_node(first.clone())).expect("an expression");
        if let Some((range, code)) = panics::panicking(&expr) {
            self.codes.insert(range.origin, code);
            *first = node(NodeKind::MacroInvocation, range, Vec::new());
        }
    }

    /// The token of a number or a character.
    fn literal(&mut self, rec: &Rec) -> RedItem {
        let range = self.range(rec.span);
        if rec.kind == tree::NUMBER {
            TreeItem::Token(number_token(text(rec), range))
        } else {
            let character = char::from_u32(rec.w).expect("a character");
            token(TokenKind::Char, character.encode_utf8(&mut [0; 4]), range)
        }
    }

    fn expression(&mut self, rec: &Rec) -> RedItem {
        match rec.kind {
            tree::MACRO => self.part(rec),
            tree::NUMBER | tree::CHARACTER => {
                let literal = self.literal(rec);
                node(NodeKind::LiteralExpr, NOWHERE, vec![literal])
            }
            _ => {
                let range = self.range(rec.span);
                let operands = self.each(&rec.child, Self::expression);
                match rec.kind {
                    tree::PREFIX => build::prefix(rec.w, range, operands),
                    tree::PARENTHESIS => node(NodeKind::ParenExpr, range, operands),
                    _ => build::infix(rec.w, range, operands),
                }
            }
        }
    }
}
