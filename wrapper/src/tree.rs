//! Descriptions written from trees, so that links and texts are right by themselves.

use std::ops::Range;

use crate::Description;

/// How many words a record of a description has.
const INPUT_WORDS: usize = 8;

// The words of a record that links stand in, by their index.
const NEXT: usize = 1;
const CHILD: usize = 2;
const W: usize = 5;

/// What a directive is.
///
/// ```
/// use definition_log::{Directive, InputKind, OwnedDescription, Tree};
///
/// let version = Tree::of(InputKind::Directive(Directive::Version)).at(0..9);
/// let lowered = OwnedDescription::of(&[version]).description().lower()?;
/// assert_eq!(lowered.log().definitions().count(), 1);
/// # Ok::<(), definition_log::LowerError>(())
/// ```
#[derive(Clone, Copy, Debug, PartialEq, Eq, Hash)]
pub enum Directive {
    /// `/dts-v1/`
    Version = 1,
    /// `/plugin/`
    Plugin = 2,
    /// `/include/`, which lowering only reports
    Include = 3,
    /// `/delete-node/`, of a name or a reference
    DeleteNode = 4,
    /// `/delete-property/`, of a name
    DeleteProperty = 5,
    /// any other
    Other = 6,
}

/// The operator of a prefix.
///
/// ```
/// use definition_log::{Cell, InputKind, OwnedDescription, Prefix, Tree, Value};
///
/// // `/ { p = <(-1)>; };`
/// let minus = Tree::of(InputKind::Prefix(Prefix::Minus)).with([Tree::of(InputKind::Number).text("1")]);
/// let cell = Tree::of(InputKind::Expression).with([minus]);
/// let property = Tree::property([Tree::name("p")], [Tree::of(InputKind::CellList).with([cell])]);
/// let root = Tree::node([Tree::of(InputKind::Slash)], [property]);
/// let lowered = OwnedDescription::of(&[root]).description().lower()?;
/// let log = lowered.log();
/// let property = log.definitions().last().expect("the property");
/// let Some(Value::CellList { record, width: 32 }) = log.values(property.record).next() else { panic!() };
/// assert_eq!(log.cells(record).collect::<Vec<_>>(), [Cell::Number(0xffff_ffff)]);
/// # Ok::<(), definition_log::LowerError>(())
/// ```
#[derive(Clone, Copy, Debug, PartialEq, Eq, Hash)]
pub enum Prefix {
    /// none: the expression fails
    Missing = 0,
    /// `+`
    Plus = 1,
    /// `-`
    Minus = 2,
    /// `~`
    NotBits = 3,
    /// `!`
    Not = 4,
}

/// The operator of an infix, whose operands are its first two children, or three.
///
/// ```
/// use definition_log::{Infix, InputKind, Tree};
///
/// let number = |text| Tree::of(InputKind::Number).text(text);
/// let sum = Tree::of(InputKind::Infix(Infix::Add)).with([number("1"), number("2")]);
/// let choice = Tree::of(InputKind::Infix(Infix::Conditional)).with([sum, number("3"), number("4")]);
/// # let _ = choice;
/// ```
#[derive(Clone, Copy, Debug, PartialEq, Eq, Hash)]
pub enum Infix {
    /// none: the expression fails
    Missing = 0,
    /// `+`
    Add = 1,
    /// `-`
    Subtract = 2,
    /// `*`
    Multiply = 3,
    /// `/`
    Divide = 4,
    /// `%`
    Remainder = 5,
    /// `&`
    AndBits = 6,
    /// `|`
    OrBits = 7,
    /// `^`
    XorBits = 8,
    /// `<<`
    ShiftLeft = 9,
    /// `>>`
    ShiftRight = 10,
    /// `&&`
    And = 11,
    /// `||`
    Or = 12,
    /// `<`
    Less = 13,
    /// `>`
    Greater = 14,
    /// `<=`
    AtMost = 15,
    /// `>=`
    AtLeast = 16,
    /// `==`
    Equal = 17,
    /// `!=`
    NotEqual = 18,
    /// `?:`
    Conditional = 19,
}

/// What a record of a description is, if it is no node and no property.
///
/// ```
/// use definition_log::{InputKind, Tree};
///
/// let slash = Tree::of(InputKind::Slash).at(10..11);
/// let string = Tree::of(InputKind::String).text("ready");
/// # let _ = (slash, string);
/// ```
#[derive(Clone, Copy, Debug, PartialEq, Eq, Hash)]
pub enum InputKind {
    /// A directive, with parts. An item; a value or cell that is one is reported.
    Directive(Directive),
    /// A preprocessor directive, which lowering only reports.
    Preprocessor,
    /// A name, in its text.
    Name,
    /// A unit address, with a name or a macro in it.
    UnitAddress,
    /// A label, with a name or a macro in it.
    Label,
    /// A reference by name, `&name`: the name is its text, which is empty where it is missing.
    Reference,
    /// A raw reference, whose text is `&{..}`: a path, or a label and a path, that may leave out unit
    /// addresses where one live node alone is meant.
    RawReference,
    /// A macro, in its text.
    Macro,
    /// The slash that is a root node's name.
    Slash,
    /// The mark that a node may be left out.
    Omit,
    /// A string, in its text.
    String,
    /// A cell list, with cells. Its text is the width, a number, empty where there is none.
    CellList,
    /// A bytestring: its text has the hex digits.
    Bytestring,
    /// A number, in its text. It is in base 8 where it starts with 0 and with none of the prefixes `0x`, `0b`
    /// and `0o`, in either case: `010` is 8, and `08` is reported.
    Number,
    /// A character.
    Character(char),
    /// An expression in a cell, with the expression in it.
    Expression,
    /// A prefix operator, with its operand.
    Prefix(Prefix),
    /// A parenthesis, with an expression in it.
    Parenthesis,
    /// An infix operator, with its operands.
    Infix(Infix),
}

impl InputKind {
    /// 01's number of the kind, and W.
    const fn words(self) -> (u32, u32) {
        match self {
            InputKind::Directive(directive) => (3, directive as u32),
            InputKind::Preprocessor => (4, 0),
            InputKind::Name => (5, 0),
            InputKind::UnitAddress => (6, 0),
            InputKind::Label => (7, 0),
            InputKind::Reference => (8, 0),
            InputKind::RawReference => (8, 1),
            InputKind::Macro => (9, 0),
            InputKind::Slash => (10, 0),
            InputKind::Omit => (11, 0),
            InputKind::String => (12, 0),
            InputKind::CellList => (13, 0),
            InputKind::Bytestring => (14, 0),
            InputKind::Number => (15, 0),
            InputKind::Character(character) => (16, character as u32),
            InputKind::Expression => (17, 0),
            InputKind::Prefix(prefix) => (18, prefix as u32),
            InputKind::Parenthesis => (19, 0),
            InputKind::Infix(infix) => (20, infix as u32),
        }
    }
}

/// A record of a description with all that is below it. Its place in the description, its links and
/// where its text starts are found by [`OwnedDescription::of`]; whether kinds fit their places is
/// tested where it is lowered.
///
/// ```
/// use definition_log::{InputKind, OwnedDescription, Tree};
///
/// // `/ { bay@1 { }; };`
/// let unit = Tree::of(InputKind::UnitAddress).with([Tree::name("1")]);
/// let bay = Tree::node([Tree::name("bay"), unit], []);
/// let root = Tree::node([Tree::of(InputKind::Slash)], [bay]);
/// let lowered = OwnedDescription::of(&[root]).description().lower()?;
/// assert!(lowered.log().contains_node("/bay@1")?);
/// # Ok::<(), Box<dyn std::error::Error>>(())
/// ```
#[derive(Clone, Debug, PartialEq, Eq, Hash)]
pub struct Tree {
    kind: u32,
    w: u32,
    text: Vec<u8>,
    span: Range<u32>,
    children: Vec<Tree>,
    body: Vec<Tree>,
}

impl Tree {
    /// A node of these parts (names, labels, a reference, ..), with these items in its body.
    ///
    /// ```
    /// use definition_log::{InputKind, Tree};
    ///
    /// // `a: b { };`
    /// let label = Tree::of(InputKind::Label).with([Tree::name("a")]);
    /// let node = Tree::node([label, Tree::name("b")], []);
    /// # let _ = node;
    /// ```
    #[must_use]
    pub fn node(parts: impl Into<Vec<Tree>>, items: impl Into<Vec<Tree>>) -> Tree {
        Tree { children: parts.into(), body: items.into(), ..Tree::bare(1, 0) }
    }

    /// A property of these parts (a name, ..), with these values.
    ///
    /// ```
    /// use definition_log::{InputKind, Tree};
    ///
    /// // `state = "ready";`
    /// let property = Tree::property([Tree::name("state")], [Tree::of(InputKind::String).text("ready")]);
    /// # let _ = property;
    /// ```
    #[must_use]
    pub fn property(parts: impl Into<Vec<Tree>>, values: impl Into<Vec<Tree>>) -> Tree {
        Tree { children: parts.into(), body: values.into(), ..Tree::bare(2, 0) }
    }

    /// A name.
    ///
    /// ```
    /// use definition_log::{InputKind, Tree};
    ///
    /// assert_eq!(Tree::name("b"), Tree::of(InputKind::Name).text("b"));
    /// ```
    #[must_use]
    pub fn name(text: impl AsRef<[u8]>) -> Tree {
        Tree::of(InputKind::Name).text(text)
    }

    /// A record of this kind, without text and children, at 0-0.
    ///
    /// ```
    /// use definition_log::{InputKind, Tree};
    ///
    /// let slash = Tree::of(InputKind::Slash);
    /// # let _ = slash;
    /// ```
    #[must_use]
    pub fn of(kind: InputKind) -> Tree {
        let (kind, w) = kind.words();
        Tree::bare(kind, w)
    }

    /// A record of a kind by its number, with W.
    const fn bare(kind: u32, w: u32) -> Tree {
        Tree { kind, w, text: Vec::new(), span: 0..0, children: Vec::new(), body: Vec::new() }
    }

    /// With this text.
    ///
    /// ```
    /// use definition_log::{InputKind, Tree};
    ///
    /// let number = Tree::of(InputKind::Number).text("0x10");
    /// # let _ = number;
    /// ```
    #[must_use]
    pub fn text(self, text: impl AsRef<[u8]>) -> Tree {
        Tree { text: text.as_ref().to_vec(), ..self }
    }

    /// At this place of the source, in bytes. Definitions, bindings and diagnostics have it.
    ///
    /// ```
    /// use definition_log::Tree;
    ///
    /// let name = Tree::name("b").at(17..18);
    /// # let _ = name;
    /// ```
    #[must_use]
    pub fn at(self, span: Range<u32>) -> Tree {
        Tree { span, ..self }
    }

    /// With these children: parts, cells or operands.
    ///
    /// ```
    /// use definition_log::{InputKind, Tree};
    ///
    /// // `<7 &a>`
    /// let seven = Tree::of(InputKind::Number).text("7");
    /// let a = Tree::of(InputKind::Reference).text("a");
    /// let cells = Tree::of(InputKind::CellList).with([seven, a]);
    /// # let _ = cells;
    /// ```
    #[must_use]
    pub fn with(self, children: impl Into<Vec<Tree>>) -> Tree {
        Tree { children: children.into(), ..self }
    }
}

/// A description with its own words and text.
///
/// ```
/// use definition_log::{Directive, InputKind, OwnedDescription, Tree};
///
/// let version = Tree::of(InputKind::Directive(Directive::Version));
/// let description = OwnedDescription::of(&[version]);
/// assert_eq!(description.description().words().len(), 2 * 8, "record 0, and the directive");
/// ```
#[derive(Clone, Debug, PartialEq, Eq, Hash)]
pub struct OwnedDescription {
    words: Vec<u32>,
    text: Vec<u8>,
}

impl OwnedDescription {
    /// The description of these top items. A record's number is above that of the record around it and
    /// of the one before it; the first top item has number 1.
    ///
    /// ```
    /// use definition_log::{OwnedDescription, Tree};
    ///
    /// let nothing = OwnedDescription::of(&[]);
    /// assert_eq!(nothing.description().words(), [0; 8]);
    /// ```
    #[must_use]
    pub fn of(items: &[Tree]) -> OwnedDescription {
        let mut description = OwnedDescription { words: vec![0; INPUT_WORDS], text: Vec::new() };
        description.words[CHILD] = description.add_all(items);
        description
    }

    /// The description, to lower.
    ///
    /// ```
    /// use definition_log::{OwnedDescription, Tree};
    ///
    /// let nothing = OwnedDescription::of(&[]);
    /// assert!(nothing.description().lower().is_ok());
    /// ```
    #[must_use]
    pub fn description(&self) -> Description<'_> {
        Description::new(&self.words, &self.text)
    }

    /// Adds a chain, and returns its first record: 0 if there is none.
    fn add_all(&mut self, trees: &[Tree]) -> u32 {
        let mut first = 0;
        let mut last = None;
        for tree in trees {
            let record = self.add(tree);
            match last {
                None => first = record,
                Some(before) => self.set(before, NEXT, record),
            }
            last = Some(record);
        }
        first
    }

    /// Adds a record with all below it, and returns its number.
    fn add(&mut self, tree: &Tree) -> u32 {
        let record = fit(self.words.len() / INPUT_WORDS);
        let start = if tree.text.is_empty() { 0 } else { fit(self.text.len()) };
        let Range { start: from, end: to } = tree.span;
        self.words.extend([tree.kind, 0, 0, start, fit(tree.text.len()), tree.w, from, to]);
        self.text.extend(&tree.text);
        let child = self.add_all(&tree.children);
        self.set(record, CHILD, child);
        if !tree.body.is_empty() {
            let body = self.add_all(&tree.body);
            self.set(record, W, body);
        }
        record
    }

    /// Sets a word of a record.
    fn set(&mut self, record: u32, word: usize, value: u32) {
        self.words[record as usize * INPUT_WORDS + word] = value;
    }
}

/// A number as a word. No description with a number that is none is lowered: it is far too large.
fn fit(number: usize) -> u32 {
    u32::try_from(number).unwrap_or(u32::MAX)
}

#[cfg(test)]
mod tests {
    use super::*;

    #[test]
    fn records_are_written_in_order() {
        let label = Tree::of(InputKind::Label).with([Tree::name("a").at(14..15)]).at(14..16);
        let node = Tree::node([label, Tree::name("b").at(17..18)], []).at(14..23);
        let root = Tree::node([Tree::of(InputKind::Slash).at(10..11)], [node]).at(10..26);
        let version = Tree::of(InputKind::Directive(Directive::Version)).at(0..9);
        let made = OwnedDescription::of(&[version, root]);
        #[rustfmt::skip]
        assert_eq!(made.words, [
            0, 0, 1, 0, 0, 0, 0, 0,
            3, 2, 0, 0, 0, 1, 0, 9,
            1, 0, 3, 0, 0, 4, 10, 26,
            10, 0, 0, 0, 0, 0, 10, 11,
            1, 0, 5, 0, 0, 0, 14, 23,
            7, 7, 6, 0, 0, 0, 14, 16,
            5, 0, 0, 0, 1, 0, 14, 15,
            5, 0, 0, 1, 1, 0, 17, 18,
        ]);
        assert_eq!(made.text, b"ab");
    }

    #[test]
    fn kinds_have_01_s_numbers() {
        let kinds = [
            (InputKind::Directive(Directive::Other), (3, 6)),
            (InputKind::Preprocessor, (4, 0)),
            (InputKind::Name, (5, 0)),
            (InputKind::UnitAddress, (6, 0)),
            (InputKind::Label, (7, 0)),
            (InputKind::Reference, (8, 0)),
            (InputKind::RawReference, (8, 1)),
            (InputKind::Macro, (9, 0)),
            (InputKind::Slash, (10, 0)),
            (InputKind::Omit, (11, 0)),
            (InputKind::String, (12, 0)),
            (InputKind::CellList, (13, 0)),
            (InputKind::Bytestring, (14, 0)),
            (InputKind::Number, (15, 0)),
            (InputKind::Character('A'), (16, 65)),
            (InputKind::Expression, (17, 0)),
            (InputKind::Prefix(Prefix::Not), (18, 4)),
            (InputKind::Parenthesis, (19, 0)),
            (InputKind::Infix(Infix::Conditional), (20, 19)),
        ];
        for (kind, words) in kinds {
            assert_eq!(kind.words(), words, "{kind:?}");
        }
    }

    #[test]
    fn values_are_a_property_s_second_chain() {
        let value = |text: &str| Tree::of(InputKind::String).text(text);
        let made = OwnedDescription::of(&[Tree::property([Tree::name("p")], [value("x"), value("")])]);
        assert_eq!(made.words[8..16], [2, 0, 2, 0, 0, 3, 0, 0]);
        assert_eq!(made.words[24..32], [12, 4, 0, 1, 1, 0, 0, 0]);
        assert_eq!(made.words[32..40], [12, 0, 0, 0, 0, 0, 0, 0], "an empty text starts at 0");
    }
}
