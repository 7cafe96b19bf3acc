//! What lowering and the post checks report.

use std::{fmt, ops::Range};

use crate::{
    Files, Log,
    read::{FILE, FIRST_DIAGNOSTIC, FIRST_POST_DIAGNOSTIC, N, NAME_FILE, NAME_SPAN, SPAN, range},
};

/// The kind of a diagnostic's record.
const DIAGNOSTIC: u32 = 15;

/// The code whose name span is the earlier binding's.
const DUPLICATE_LABEL: u32 = 20;

/// The code of a path that leaves out unit addresses and may mean more than one node.
const AMBIGUOUS_NODE: u32 = 29;

/// What that code stands for.
const AMBIGUOUS: &str = "without its unit addresses the path may mean more than one node";

/// What each code stands for, from code 1 on.
const MEANINGS: [&str; 26] = [
    "preprocessor directives are not read",
    "includes are not read",
    "label not found",
    "node not found",
    "a subnode must stand inside a node",
    "a root node must stand outside of other nodes",
    "a property must stand inside a node",
    "directives are not read as values",
    "directives are not read as cells",
    "macro not defined",
    "a hex digit is missing",
    "cells must have 8, 16, 32 or 64 bits",
    "the character is too large for its cell",
    "a reference needs cells of 32 bits",
    "the result does not fit its cell, with or without a sign",
    "the number is empty",
    "this is no digit",
    "the number is too large",
    "the number is too small",
    "duplicate label",
    "the version directive must stand before definitions",
    "the plugin directive must stand right behind the version directive",
    "a definition stands before the version directive",
    "the result is outside of 64 bits",
    "division by zero",
    "a shift amount must be 0 to 63",
];

/// A diagnostic of a log: its code, what it is about, and where that stands. To print it says what the
/// code stands for, and [`located`](Diagnostic::located) says where as well.
///
/// ```
/// use definition_log::{InputKind, OwnedDescription, Tree};
///
/// // `&a { };`
/// let reference = Tree::of(InputKind::Reference).text("a").at(0..2);
/// let lowered = OwnedDescription::of(&[Tree::node([reference], [])]).description().lower()?;
/// let diagnostic = lowered.log().diagnostics().next().expect("a diagnostic");
/// assert_eq!((diagnostic.code, diagnostic.text, diagnostic.span.clone()), (3, &b"a"[..], 0..2));
/// assert_eq!(diagnostic.to_string(), "label not found: a (code 3)");
/// # Ok::<(), definition_log::LowerError>(())
/// ```
#[derive(Clone, Debug, PartialEq, Eq, Hash)]
pub struct Diagnostic<'a> {
    /// The number of its record.
    pub record: u32,
    /// 01's code, 1 to 26, or 02's 29.
    pub code: u32,
    /// The label of codes 3 and 20, the path of 4 and 29, the macro of 10; else empty.
    pub text: &'a [u8],
    /// Where it stands in the source, in bytes.
    pub span: Range<u32>,
    /// The number of the file that its span starts in; see [`Files`].
    pub file: usize,
    /// Of code 20: where the label was bound first.
    pub earlier: Option<Range<u32>>,
    /// Of code 20: the number of the file that the label was bound in first.
    pub earlier_file: Option<usize>,
}

impl Diagnostic<'_> {
    /// What its code stands for.
    ///
    /// ```
    /// use definition_log::Diagnostic;
    ///
    /// let (span, file, earlier, earlier_file) = (4..9, 0, None, None);
    /// let diagnostic = Diagnostic { record: 1, code: 25, text: b"", span, file, earlier, earlier_file };
    /// assert_eq!(diagnostic.meaning(), "division by zero");
    /// ```
    #[must_use]
    pub fn meaning(&self) -> &'static str {
        if self.code == AMBIGUOUS_NODE {
            return AMBIGUOUS;
        }
        let place = self.code.checked_sub(1).and_then(|place| usize::try_from(place).ok());
        place.and_then(|place| MEANINGS.get(place)).copied().unwrap_or("a code that no diagnostic has")
    }

    /// What it says, behind the file that its span starts in and the places there; of a duplicate label
    /// also where it was bound first.
    ///
    /// ```
    /// use definition_log::{Files, InputKind, OwnedDescription, Tree};
    ///
    /// // `stock = &lost;` of a root, in the second file
    /// let lost = Tree::of(InputKind::Reference).text("lost").at(89..94);
    /// let stock = Tree::property([Tree::name("stock").at(81..86)], [lost]).at(81..95);
    /// let described = OwnedDescription::of(&[Tree::node([Tree::of(InputKind::Slash)], [stock])]);
    /// let files = Files::from_lengths([27, 74])?;
    /// let lowered = described.description().in_files(&files).lower()?;
    /// let diagnostic = lowered.log().post_diagnostics().next().expect("a diagnostic");
    /// assert_eq!(diagnostic.located(&files), "file 1, 54-59: label not found: lost (code 3)");
    /// let files = files.named(["base.dts", "depot.dts"]);
    /// assert_eq!(diagnostic.located(&files), "depot.dts, 54-59: label not found: lost (code 3)");
    /// # Ok::<(), definition_log::LowerError>(())
    /// ```
    #[must_use]
    pub fn located(&self, files: &Files) -> String {
        let said = format!("{}: {self}", files.located(&self.span));
        match &self.earlier {
            Some(earlier) => format!("{said}, bound first in {}", files.located(earlier)),
            None => said,
        }
    }
}

impl fmt::Display for Diagnostic<'_> {
    fn fmt(&self, f: &mut fmt::Formatter<'_>) -> fmt::Result {
        f.write_str(self.meaning())?;
        if !self.text.is_empty() {
            write!(f, ": {}", String::from_utf8_lossy(self.text))?;
        }
        write!(f, " (code {})", self.code)
    }
}

/// Readers of diagnostics.
impl<'a> Log<'a> {
    /// What lowering reported, in order.
    ///
    /// ```
    /// assert_eq!(definition_log::sample::log().diagnostics().count(), 0);
    /// ```
    pub fn diagnostics(&self) -> impl Iterator<Item = Diagnostic<'a>> + use<'a> {
        self.diagnostics_from(self.head(FIRST_DIAGNOSTIC))
    }

    /// What the post checks reported: duplicate labels, then references that lead nowhere, then
    /// directives in a wrong order.
    ///
    /// ```
    /// use definition_log::{InputKind, OwnedDescription, Tree};
    ///
    /// // `/ { };`, without a version directive before it
    /// let root = Tree::node([Tree::of(InputKind::Slash).at(0..1)], []);
    /// let lowered = OwnedDescription::of(&[root]).description().lower()?;
    /// let codes: Vec<u32> = lowered.log().post_diagnostics().map(|diagnostic| diagnostic.code).collect();
    /// assert_eq!(codes, [23]);
    /// # Ok::<(), definition_log::LowerError>(())
    /// ```
    pub fn post_diagnostics(&self) -> impl Iterator<Item = Diagnostic<'a>> + use<'a> {
        self.diagnostics_from(self.head(FIRST_POST_DIAGNOSTIC))
    }

    /// The diagnostics of a chain.
    fn diagnostics_from(self, first: u32) -> impl Iterator<Item = Diagnostic<'a>> + use<'a> {
        self.chain_of(first, DIAGNOSTIC).map_while(move |(record, words)| {
            let code = words[N];
            let duplicate = code == DUPLICATE_LABEL;
            Some(Diagnostic {
                record,
                code,
                text: self.text(words)?,
                span: range(words, SPAN),
                file: words[FILE] as usize,
                earlier: duplicate.then(|| range(words, NAME_SPAN)),
                earlier_file: duplicate.then_some(words[NAME_FILE] as usize),
            })
        })
    }
}

#[cfg(test)]
mod tests {
    use super::*;

    /// A diagnostic without a text, in file 1.
    fn bare(record: u32, code: u32, span: Range<u32>) -> Diagnostic<'static> {
        Diagnostic { record, code, text: b"", span, file: 1, earlier: None, earlier_file: None }
    }

    #[test]
    fn codes_go_from_1_to_26_and_29() {
        let of = |code| bare(0, code, 0..0);
        assert_eq!(of(1).meaning(), MEANINGS[0]);
        assert_eq!(of(20).to_string(), "duplicate label (code 20)");
        assert_eq!(of(26).meaning(), MEANINGS[25]);
        assert_eq!(of(29).meaning(), AMBIGUOUS);
        for code in [0, 27, 28, 30, u32::MAX] {
            assert_eq!(of(code).meaning(), "a code that no diagnostic has");
        }
    }

    #[test]
    fn the_name_span_of_a_duplicate_is_the_earlier_binding() {
        let mut words = vec![0; 16];
        (words[4], words[6]) = (1, 2);
        words.extend([15, 0, 0, 1, 0, 0, 0, 20, 0, 8, 9, 4, 5, 1, 3, 0]);
        words.extend([15, 0, 0, 0, 0, 0, 0, 21, 0, 6, 7, 0, 0, 1, 9, 0]);
        let log = Log::new(&words, b"a");
        let first =
            Diagnostic { text: b"a", earlier: Some(4..5), earlier_file: Some(3), ..bare(1, 20, 8..9) };
        assert_eq!(log.diagnostics().collect::<Vec<_>>(), [first]);
        assert_eq!(log.post_diagnostics().collect::<Vec<_>>(), [bare(2, 21, 6..7)]);
    }
}
