//! What parsing would hand over.

use std::{marker::PhantomData, sync::Arc};

use crate::{
    ast::{AstNode, SourceFile},
    cst::{GreenNode, RedNode},
};

/// A whole tree.
pub struct Parse<'a> {
    pub green_node: Arc<GreenNode>,
    root: Arc<RedNode>,
    text: PhantomData<&'a str>,
}

impl Parse<'_> {
    /// The outcome of parsing that gave this tree.
    #[must_use]
    pub fn of_tree(root: Arc<RedNode>) -> Self {
        Self { green_node: root.green.clone(), root, text: PhantomData }
    }

    /// # Panics
    ///
    /// Panics if the tree's top is not a source file.
    #[must_use]
    pub fn source_file(&self) -> SourceFile {
        SourceFile::cast(self.root.clone()).expect("the top is a source file")
    }
}

pub(crate) fn parse(_: &str) -> Parse<'_> {
    unimplemented!("there is no parser here: trees are built directly")
}
