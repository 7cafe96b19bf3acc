//! Trees: a node's kind and children, a token's kind and text, and the range of each.
//!
//! The green part holds kinds and texts, the red part ranges too. Ranges are given, not computed,
//! so that a tree can hold any that 01's records can.

use std::sync::Arc;

use crate::{TextRange, lexer::TokenKind};

#[derive(Debug, Clone, Copy, PartialEq, Eq, Hash)]
pub enum NodeKind {
    SourceFile,
    DtNode,
    DtProperty,
    PropValueList,
    DtsDirective,
    DtsDirectiveArguments,
    UnitAddress,
    DtLabel,
    DtPhandle,
    MacroInvocation,
    MacroArgument,
    DtCellList,
    DtExpr,
    PrefixExpr,
    ParenExpr,
    LiteralExpr,
    InfixExpr,
    PreprocessorConditional,
    PreprocessorBranch,
    EntryName,
}

#[derive(Debug, Clone, PartialEq, Eq, Hash)]
pub enum TreeItem<N, T> {
    Node(N),
    Token(T),
}

impl<N, T> TreeItem<N, T> {
    pub fn as_node(&self) -> Option<&N> {
        match self {
            Self::Node(node) => Some(node),
            Self::Token(_) => None,
        }
    }

    pub fn into_node(self) -> Option<N> {
        match self {
            Self::Node(node) => Some(node),
            Self::Token(_) => None,
        }
    }

    pub fn into_token(self) -> Option<T> {
        match self {
            Self::Node(_) => None,
            Self::Token(token) => Some(token),
        }
    }
}

pub type GreenItem = TreeItem<Arc<GreenNode>, Arc<GreenToken>>;
pub type RedItem = TreeItem<Arc<RedNode>, RedToken>;
pub type RedItemRef<'a> = TreeItem<&'a Arc<RedNode>, &'a RedToken>;

#[derive(Debug, Clone, PartialEq, Eq, Hash)]
pub struct GreenToken {
    pub kind: TokenKind,
    pub text: String,
}

#[derive(Debug, Clone, PartialEq, Eq, Hash)]
pub struct GreenNode {
    pub kind: NodeKind,
    pub children: Vec<GreenItem>,
}

impl GreenNode {
    pub fn child_tokens(&self) -> impl Iterator<Item = &GreenToken> {
        self.children.iter().filter_map(|child| match child {
            TreeItem::Token(token) => Some(&**token),
            TreeItem::Node(_) => None,
        })
    }

    /// The texts of all tokens below, one behind the other.
    #[must_use]
    pub fn text(&self) -> String {
        let mut text = String::new();
        self.add_text(&mut text);
        text
    }

    fn add_text(&self, text: &mut String) {
        for child in &self.children {
            match child {
                TreeItem::Token(token) => text.push_str(&token.text),
                TreeItem::Node(node) => node.add_text(text),
            }
        }
    }
}

#[derive(Debug, Clone, PartialEq, Eq, Hash)]
pub struct RedToken {
    pub green: Arc<GreenToken>,
    range: TextRange,
}

impl RedToken {
    #[must_use]
    pub fn new(kind: TokenKind, text: &str, range: TextRange) -> Self {
        Self { green: Arc::new(GreenToken { kind, text: text.to_owned() }), range }
    }

    #[must_use]
    pub fn text(&self) -> &String {
        &self.green.text
    }

    #[must_use]
    pub fn text_range(&self) -> TextRange {
        self.range
    }
}

#[derive(Debug, Clone, PartialEq, Eq, Hash)]
pub struct RedNode {
    pub green: Arc<GreenNode>,
    range: TextRange,
    children: Vec<RedItem>,
}

impl RedNode {
    #[must_use]
    pub fn new(kind: NodeKind, range: TextRange, children: Vec<RedItem>) -> Arc<Self> {
        let green = children
            .iter()
            .map(|child| match child {
                TreeItem::Node(node) => TreeItem::Node(node.green.clone()),
                TreeItem::Token(token) => TreeItem::Token(token.green.clone()),
            })
            .collect();
        Arc::new(Self { green: Arc::new(GreenNode { kind, children: green }), range, children })
    }

    #[must_use]
    pub fn text_range(&self) -> TextRange {
        self.range
    }

    pub fn children(&self) -> impl Iterator<Item = RedItem> + '_ {
        self.children.iter().cloned()
    }

    pub fn owned_children(&self) -> impl Iterator<Item = RedItem> + use<> {
        self.children.clone().into_iter()
    }

    pub fn child_nodes(&self) -> impl Iterator<Item = Arc<RedNode>> + '_ {
        self.children().filter_map(TreeItem::into_node)
    }

    pub fn child_tokens(&self) -> impl Iterator<Item = RedToken> + '_ {
        self.children().filter_map(TreeItem::into_token)
    }

    /// A built tree keeps no way up; lowering never asks for it.
    pub fn parent_ancestors(&self) -> impl Iterator<Item = Arc<RedNode>> + use<> {
        std::iter::empty()
    }
}
