//! What stands in a log's records: plain reading, which the proofs do not speak of.

use std::{fmt, ops::Range};

use crate::{Log, Target};

/// How many words a record has.
pub(crate) const RECORD_WORDS: usize = 16;

/// A log has no record from this one on, however many words are lent.
pub(crate) const MOST_RECORDS: usize = 65_536;

/// The words of a record.
pub(crate) type Record = [u32; RECORD_WORDS];

// The words of a record, by their index.
pub(crate) const KIND: usize = 0;
const NEXT: usize = 1;
const TEXT: usize = 2;
const SECOND_TEXT: usize = 4;
pub(crate) const CHILD: usize = 6;
pub(crate) const N: usize = 7;
pub(crate) const M: usize = 8;
pub(crate) const SPAN: usize = 9;
pub(crate) const NAME_SPAN: usize = 11;
pub(crate) const FILE: usize = 13;
pub(crate) const NAME_FILE: usize = 14;

// The words of record 0: how much is used, and the first record of each chain.
const RECORDS_USED: usize = 0;
const FIRST_DEFINITION: usize = 1;
const FIRST_EXTENSION: usize = 2;
const FIRST_BINDING: usize = 3;
pub(crate) const FIRST_DIAGNOSTIC: usize = 4;
const BYTES_USED: usize = 5;
pub(crate) const FIRST_POST_DIAGNOSTIC: usize = 6;

// The kinds of records that are no definitions.
const LABEL: u32 = 7;
const EXTENSION: u32 = 13;
const BINDING: u32 = 14;

/// What a definition does.
///
/// ```
/// use definition_log::{Kind, sample};
///
/// let kinds: Vec<Kind> = sample::log().definitions().map(|definition| definition.kind).collect();
/// assert_eq!(kinds[0], Kind::Version);
/// assert_eq!(Kind::DeletedNode.to_string(), "deleted node");
/// ```
#[derive(Clone, Copy, Debug, PartialEq, Eq, Hash)]
pub enum Kind {
    /// Defines a node, or opens it again.
    Node,
    /// Defines a property, in place of an earlier one at its path.
    Property,
    /// Deletes a node with all that is under it.
    DeletedNode,
    /// Deletes a property.
    DeletedProperty,
    /// The version directive, `/dts-v1/`.
    Version,
    /// The plugin directive, `/plugin/`.
    Plugin,
}

impl Kind {
    /// The kind of this number; 7 and above are no definitions.
    fn of(number: u32) -> Option<Kind> {
        match number {
            1 => Some(Kind::Node),
            2 => Some(Kind::Property),
            3 => Some(Kind::DeletedNode),
            4 => Some(Kind::DeletedProperty),
            5 => Some(Kind::Version),
            6 => Some(Kind::Plugin),
            _ => None,
        }
    }
}

impl fmt::Display for Kind {
    fn fmt(&self, f: &mut fmt::Formatter<'_>) -> fmt::Result {
        f.write_str(match self {
            Kind::Node => "node",
            Kind::Property => "property",
            Kind::DeletedNode => "deleted node",
            Kind::DeletedProperty => "deleted property",
            Kind::Version => "version",
            Kind::Plugin => "plugin",
        })
    }
}

/// A definition of a log.
///
/// ```
/// use definition_log::{Kind, sample};
///
/// let b = sample::log().definition(3).expect("record 3 is a definition");
/// assert_eq!((b.record, b.kind, b.path), (3, Kind::Node, &b"/b"[..]));
/// assert_eq!((b.span, b.name_span, b.omit), (14..23, 17..18, false));
/// assert_eq!((b.file, b.name_file), (0, 0), "it was lowered as one file");
/// ```
#[derive(Clone, Debug, PartialEq, Eq, Hash)]
pub struct Definition<'a> {
    /// The number of its record.
    pub record: u32,
    /// What it does.
    pub kind: Kind,
    /// What it does it to. The path of a directive at the top is empty.
    pub path: &'a [u8],
    /// Where it stands in the source, in bytes.
    pub span: Range<u32>,
    /// Where its name stands there.
    pub name_span: Range<u32>,
    /// The number of the file that its span starts in; see [`Files`](crate::Files).
    pub file: usize,
    /// The number of the file that its name stands in.
    pub name_file: usize,
    /// Of a node: that it may be left out if nothing refers to it.
    pub omit: bool,
}

/// A label that is bound to the path of a node, in the order in which bindings were made; those that a
/// deletion removed are not there.
///
/// ```
/// let a = definition_log::sample::log().bindings().next().expect("a binding");
/// assert_eq!((a.record, a.label, a.path, a.span), (5, &b"a"[..], &b"/b"[..], 14..16));
/// ```
#[derive(Clone, Debug, PartialEq, Eq, Hash)]
pub struct Binding<'a> {
    /// The number of its record.
    pub record: u32,
    /// The label.
    pub label: &'a [u8],
    /// The path of the node that it stands before.
    pub path: &'a [u8],
    /// Where the label stands in the source, in bytes.
    pub span: Range<u32>,
    /// The number of the file that the label stands in.
    pub file: usize,
}

/// A node whose reference leads nowhere in an overlay, kept with its body, which
/// [`Log::body`] has.
///
/// ```
/// use definition_log::{Directive, InputKind, OwnedDescription, Target, Tree};
///
/// // `/plugin/; &a { };`
/// let plugin = Tree::of(InputKind::Directive(Directive::Plugin)).at(0..10);
/// let a = Tree::of(InputKind::Reference).text("a").at(11..13);
/// let lowered = OwnedDescription::of(&[plugin, Tree::node([a], []).at(11..18)]).description().lower()?;
/// let extension = lowered.log().extensions().next().expect("an extension");
/// assert_eq!(extension.target, Some(Target::Label(b"a")));
/// assert_eq!((extension.span, extension.name_span), (11..18, 11..13));
/// # Ok::<(), definition_log::LowerError>(())
/// ```
#[derive(Clone, Debug, PartialEq, Eq, Hash)]
pub struct Extension<'a> {
    /// The number of its record.
    pub record: u32,
    /// What it refers to; lowering makes no extension without it.
    pub target: Option<Target<'a>>,
    /// Where it stands in the source, in bytes.
    pub span: Range<u32>,
    /// Where its reference stands there.
    pub name_span: Range<u32>,
    /// The number of the file that its span starts in.
    pub file: usize,
    /// The number of the file that its reference stands in.
    pub name_file: usize,
}

/// Readers. They test no rule: of a log that a query would refuse they give what can be read, and
/// end. They never panic.
impl<'a> Log<'a> {
    /// The definition of this record number, as a query's list has it; `None` if there is none.
    ///
    /// ```
    /// use definition_log::sample;
    ///
    /// let log = sample::log();
    /// let deletion = *log.history("/c")?.last().expect("it was defined");
    /// let deletion = log.definition(deletion).expect("lists have definitions");
    /// assert_eq!((deletion.path, deletion.span), (&b"/c"[..], 44..60));
    /// assert!(log.definition(0).is_none(), "record 0 is the log's head");
    /// assert!(log.definition(4).is_none(), "record 4 is a label");
    /// # Ok::<(), definition_log::QueryError>(())
    /// ```
    #[must_use]
    pub fn definition(&self, record: u32) -> Option<Definition<'a>> {
        let words = self.record(record)?;
        Some(Definition {
            record,
            kind: Kind::of(words[KIND])?,
            path: self.text(words)?,
            span: range(words, SPAN),
            name_span: range(words, NAME_SPAN),
            file: words[FILE] as usize,
            name_file: words[NAME_FILE] as usize,
            omit: words[KIND] == 1 && words[N] != 0,
        })
    }

    /// All definitions of the log, in the order in which they were made; not those in the bodies of
    /// extensions, which no query lists.
    ///
    /// ```
    /// use definition_log::sample;
    ///
    /// let paths: Vec<&[u8]> = sample::log().definitions().map(|definition| definition.path).collect();
    /// assert_eq!(paths, [&b""[..], b"/", b"/b", b"/", b"/p", b"/c", b"/c/q", b"/c"]);
    /// ```
    pub fn definitions(&self) -> impl Iterator<Item = Definition<'a>> + use<'a> {
        let log = *self;
        log.chain(log.head(FIRST_DEFINITION)).map_while(move |record| log.definition(record))
    }

    /// The labels of the node that this record defines, as they stand before its name; none if it
    /// defines no node.
    ///
    /// ```
    /// use definition_log::sample;
    ///
    /// let log = sample::log();
    /// assert_eq!(log.labels(3).collect::<Vec<_>>(), [b"a"]);
    /// assert_eq!(log.labels(2).count(), 0);
    /// ```
    pub fn labels(&self, record: u32) -> impl Iterator<Item = &'a [u8]> + use<'a> {
        let log = *self;
        let first = match self.definition(record) {
            Some(Definition { kind: Kind::Node, .. }) => self.record(record).map_or(0, |words| words[CHILD]),
            _ => 0,
        };
        log.chain_of(first, LABEL).map_while(move |(_, words)| log.text(words))
    }

    /// The bindings of the log, in the order in which they were made.
    ///
    /// ```
    /// let labels: Vec<&[u8]> = definition_log::sample::log().bindings().map(|binding| binding.label).collect();
    /// assert_eq!(labels, [b"a"]);
    /// ```
    pub fn bindings(&self) -> impl Iterator<Item = Binding<'a>> + use<'a> {
        let log = *self;
        log.chain_of(log.head(FIRST_BINDING), BINDING).map_while(move |(record, words)| {
            let (label, path) = (log.text(words)?, log.second_text(words)?);
            Some(Binding { record, label, path, span: range(words, SPAN), file: words[FILE] as usize })
        })
    }

    /// The extensions of the log, those inside another one's body before it.
    ///
    /// ```
    /// assert_eq!(definition_log::sample::log().extensions().count(), 0);
    /// ```
    pub fn extensions(&self) -> impl Iterator<Item = Extension<'a>> + use<'a> {
        let log = *self;
        log.chain_of(log.head(FIRST_EXTENSION), EXTENSION).map(move |(record, words)| Extension {
            record,
            target: log.record(words[CHILD]).and_then(|reference| log.target(reference)),
            span: range(words, SPAN),
            name_span: range(words, NAME_SPAN),
            file: words[FILE] as usize,
            name_file: words[NAME_FILE] as usize,
        })
    }

    /// The definitions in the body of the extension of this record number, in whose paths "/" stands
    /// for the node that it refers to; none if there is no such extension.
    ///
    /// ```
    /// use definition_log::{Directive, InputKind, OwnedDescription, Tree};
    ///
    /// // `/plugin/; &a { p; };`
    /// let plugin = Tree::of(InputKind::Directive(Directive::Plugin));
    /// let p = Tree::property([Tree::name("p")], []);
    /// let node = Tree::node([Tree::of(InputKind::Reference).text("a")], [p]);
    /// let lowered = OwnedDescription::of(&[plugin, node]).description().lower()?;
    /// let log = lowered.log();
    /// let extension = log.extensions().next().expect("an extension");
    /// let paths: Vec<&[u8]> = log.body(extension.record).map(|definition| definition.path).collect();
    /// assert_eq!(paths, [b"/p"]);
    /// assert_eq!(log.body(1).count(), 0, "record 1 is no extension");
    /// # Ok::<(), definition_log::LowerError>(())
    /// ```
    pub fn body(&self, record: u32) -> impl Iterator<Item = Definition<'a>> + use<'a> {
        let log = *self;
        let first = self.record(record).filter(|words| words[KIND] == EXTENSION).map_or(0, |words| words[M]);
        log.chain(first).map_while(move |record| log.definition(record))
    }

    /// How many records were made, as record 0 says: record 0 too, and what was dropped again. A buffer
    /// for as many is enough to lower the same description.
    ///
    /// ```
    /// assert_eq!(definition_log::sample::log().records_used(), 11);
    /// ```
    #[must_use]
    pub fn records_used(&self) -> usize {
        self.head(RECORDS_USED) as usize
    }

    /// How many bytes of text were made, as record 0 says.
    ///
    /// ```
    /// assert_eq!(definition_log::sample::log().bytes_used(), 18);
    /// ```
    #[must_use]
    pub fn bytes_used(&self) -> usize {
        self.head(BYTES_USED) as usize
    }

    /// How many records belong to the log.
    fn count(&self) -> usize {
        (self.words.len() / RECORD_WORDS).min(MOST_RECORDS)
    }

    /// A word of record 0; 0 if there is none.
    pub(crate) fn head(&self, word: usize) -> u32 {
        self.words.first_chunk::<RECORD_WORDS>().map_or(0, |head| head[word])
    }

    /// The words of a record other than record 0.
    pub(crate) fn record(&self, record: u32) -> Option<&'a Record> {
        let record = record as usize;
        if record == 0 || self.count() <= record {
            return None;
        }
        self.words[record * RECORD_WORDS..].first_chunk()
    }

    /// The first text of a record.
    pub(crate) fn text(&self, words: &Record) -> Option<&'a [u8]> {
        self.text_at(words[TEXT], words[TEXT + 1])
    }

    /// The second text of a record.
    pub(crate) fn second_text(&self, words: &Record) -> Option<&'a [u8]> {
        self.text_at(words[SECOND_TEXT], words[SECOND_TEXT + 1])
    }

    /// The text at a start, of a length.
    fn text_at(&self, start: u32, length: u32) -> Option<&'a [u8]> {
        let start = start as usize;
        self.bytes.get(start..start.checked_add(length as usize)?)
    }

    /// The records of a chain from this one on: up to the end, a link that leads out of the log, or
    /// as many as the log has.
    fn chain(self, first: u32) -> impl Iterator<Item = u32> + use<'a> {
        std::iter::successors(Some(first), move |&record| Some(self.record(record)?[NEXT]))
            .take_while(move |&record| self.record(record).is_some())
            .take(self.count())
    }

    /// The records of a chain from this one on with their words, as far as they are of this kind.
    pub(crate) fn chain_of(self, first: u32, kind: u32) -> impl Iterator<Item = (u32, &'a Record)> + use<'a> {
        self.chain_with(first).take_while(move |(_, words)| words[KIND] == kind)
    }

    /// The records of a chain from this one on, with their words.
    pub(crate) fn chain_with(self, first: u32) -> impl Iterator<Item = (u32, &'a Record)> + use<'a> {
        self.chain(first).filter_map(move |record| Some((record, self.record(record)?)))
    }
}

/// The two words of a span.
pub(crate) fn range(words: &Record, word: usize) -> Range<u32> {
    words[word]..words[word + 1]
}

#[cfg(test)]
mod tests {
    use super::*;
    use crate::sample;

    fn changed(record: usize, word: usize, value: u32) -> Vec<u32> {
        let mut words = sample::log().words().to_vec();
        words[record * RECORD_WORDS + word] = value;
        words
    }

    #[test]
    fn definitions_are_read_whole() {
        let all: Vec<_> = sample::log().definitions().collect();
        let kinds: Vec<_> = all.iter().map(|definition| definition.kind.to_string()).collect();
        assert_eq!(
            kinds,
            ["version", "node", "node", "node", "property", "node", "property", "deleted node"]
        );
        assert_eq!(
            all.iter().map(|definition| definition.record).collect::<Vec<_>>(),
            [1, 2, 3, 6, 7, 8, 9, 10]
        );
        assert_eq!((all[0].span.clone(), all[0].path), (0..9, &b""[..]));
        assert_eq!(all[6].name_span, 38..39);
    }

    #[test]
    fn the_omit_mark_is_a_node_s() {
        let bytes = sample::log().bytes();
        assert!(Log::new(&changed(3, N, 1), bytes).definition(3).unwrap().omit);
        assert!(!Log::new(&changed(7, N, 1), bytes).definition(7).unwrap().omit);
    }

    #[test]
    fn kinds_go_up_to_6() {
        let bytes = sample::log().bytes();
        let kind = |number| Log::new(&changed(3, KIND, number), bytes).definition(3).map(|found| found.kind);
        assert_eq!(kind(4), Some(Kind::DeletedProperty));
        assert_eq!(kind(6), Some(Kind::Plugin));
        assert_eq!((kind(0), kind(7), kind(u32::MAX)), (None, None, None));
    }

    #[test]
    fn broken_logs_are_read_as_far_as_they_go() {
        let bytes = sample::log().bytes();
        let paths = |words: &[u32]| Log::new(words, bytes).definitions().count();
        assert_eq!(paths(&[]), 0);
        assert_eq!(paths(&sample::log().words()[..15]), 0);
        assert_eq!(paths(&changed(10, NEXT, 1)), 11, "a loop: as many as the log has records");
        assert_eq!(paths(&changed(3, NEXT, 11)), 3, "a link out of the log");
        assert_eq!(paths(&changed(3, NEXT, u32::MAX)), 3);
        assert_eq!(paths(&changed(3, NEXT, 4)), 3, "a label among definitions");
        assert_eq!(paths(&changed(2, TEXT, 19)), 1, "a text behind the bytes");
        assert_eq!(paths(&changed(2, TEXT + 1, u32::MAX)), 1);
        let log = changed(4, NEXT, 4);
        assert_eq!(Log::new(&log, bytes).labels(3).count(), 11);
        assert_eq!(Log::new(&changed(7, CHILD, 4), bytes).labels(7).count(), 0, "a property has no labels");
    }

    #[test]
    fn records_from_65536_on_are_no_part_of_the_log() {
        let mut words = vec![0; (MOST_RECORDS + 1) * RECORD_WORDS];
        words[(MOST_RECORDS - 1) * RECORD_WORDS] = 5;
        words[MOST_RECORDS * RECORD_WORDS] = 5;
        let log = Log::new(&words, b"");
        assert!(log.definition(65_535).is_some());
        assert!(log.definition(65_536).is_none());
    }
}
