//! What properties hold.

use std::fmt;

use crate::{
    Log,
    read::{CHILD, KIND, M, N, Record},
};

// The kinds of values and cells.
const PROPERTY: u32 = 2;
const STRING: u32 = 8;
const CELL_LIST: u32 = 9;
const BYTESTRING: u32 = 10;
const NUMBER: u32 = 11;
const REFERENCE: u32 = 12;

/// What a reference names, as it stood in the source: a label, a path, or a path from a label on.
///
/// ```
/// use definition_log::Target;
///
/// assert_eq!(Target::Label(b"a").to_string(), "&a");
/// assert_eq!(Target::LabelAndPath { label: b"a", path: b"b/c" }.to_string(), "&{a/b/c}");
/// assert_eq!(Target::Path(b"/b/c").to_string(), "&{/b/c}");
/// ```
#[derive(Clone, Copy, Debug, PartialEq, Eq, Hash)]
pub enum Target<'a> {
    /// The node of a label.
    Label(&'a [u8]),
    /// A node below the node of a label.
    LabelAndPath {
        /// The label.
        label: &'a [u8],
        /// The path from there, without a slash before it.
        path: &'a [u8],
    },
    /// The node at a path.
    Path(&'a [u8]),
}

impl fmt::Display for Target<'_> {
    fn fmt(&self, f: &mut fmt::Formatter<'_>) -> fmt::Result {
        let text = String::from_utf8_lossy;
        match self {
            Target::Label(label) => write!(f, "&{}", text(label)),
            Target::LabelAndPath { label, path } => write!(f, "&{{{}/{}}}", text(label), text(path)),
            Target::Path(path) => write!(f, "&{{{}}}", text(path)),
        }
    }
}

/// A value of a property.
///
/// ```
/// use definition_log::{InputKind, OwnedDescription, Tree, Value};
///
/// // `/ { p = "on", [0a ff]; };`
/// let values = [Tree::of(InputKind::String).text("on"), Tree::of(InputKind::Bytestring).text("[0a ff]")];
/// let root = Tree::node([Tree::of(InputKind::Slash)], [Tree::property([Tree::name("p")], values)]);
/// let lowered = OwnedDescription::of(&[root]).description().lower()?;
/// let log = lowered.log();
/// let p = log.definitions().last().expect("the property");
/// let values: Vec<Value> = log.values(p.record).collect();
/// assert_eq!(values, [Value::String(b"on"), Value::Bytestring(&[0x0a, 0xff])]);
/// # Ok::<(), definition_log::LowerError>(())
/// ```
#[derive(Clone, Copy, Debug, PartialEq, Eq, Hash)]
pub enum Value<'a> {
    /// A string's bytes.
    String(&'a [u8]),
    /// A cell list, whose cells [`Log::cells`] has.
    CellList {
        /// The number of its record.
        record: u32,
        /// How many bits a cell has: 8, 16, 32 or 64.
        width: u32,
    },
    /// A bytestring's bytes.
    Bytestring(&'a [u8]),
    /// A reference.
    Reference(Target<'a>),
}

/// A cell of a cell list.
///
/// ```
/// use definition_log::{Cell, InputKind, OwnedDescription, Target, Tree, Value};
///
/// // `/ { p = <7 &a>; };`
/// let cells = [Tree::of(InputKind::Number).text("7"), Tree::of(InputKind::Reference).text("a")];
/// let list = Tree::of(InputKind::CellList).with(cells);
/// let root = Tree::node([Tree::of(InputKind::Slash)], [Tree::property([Tree::name("p")], [list])]);
/// let lowered = OwnedDescription::of(&[root]).description().lower()?;
/// let log = lowered.log();
/// let p = log.definitions().last().expect("the property");
/// let Some(Value::CellList { record, width: 32 }) = log.values(p.record).next() else { panic!() };
/// let cells: Vec<Cell> = log.cells(record).collect();
/// assert_eq!(cells, [Cell::Number(7), Cell::Reference(Target::Label(b"a"))]);
/// # Ok::<(), definition_log::LowerError>(())
/// ```
#[derive(Clone, Copy, Debug, PartialEq, Eq, Hash)]
pub enum Cell<'a> {
    /// A number, below two to the cell's width; one below zero is stored modulo that.
    Number(u64),
    /// A reference, in cells of 32 bits.
    Reference(Target<'a>),
}

/// Readers of what properties hold.
impl<'a> Log<'a> {
    /// The values of the property that this record defines; none if it defines no property.
    ///
    /// ```
    /// let log = definition_log::sample::log();
    /// assert_eq!(log.values(7).count(), 0, "`p;` has no values");
    /// ```
    pub fn values(&self, record: u32) -> impl Iterator<Item = Value<'a>> + use<'a> {
        let log = *self;
        log.chain_with(log.child(record, PROPERTY)).map_while(move |(record, words)| log.value(record, words))
    }

    /// The cells of the cell list of this record number, as [`Value::CellList`] has it; none if there is
    /// no such list.
    ///
    /// ```
    /// assert_eq!(definition_log::sample::log().cells(7).count(), 0, "record 7 is a property");
    /// ```
    pub fn cells(&self, record: u32) -> impl Iterator<Item = Cell<'a>> + use<'a> {
        let log = *self;
        log.chain_with(log.child(record, CELL_LIST)).map_while(move |(_, words)| log.cell(words))
    }

    /// The first child of a record, if the record is of this kind.
    fn child(&self, record: u32, kind: u32) -> u32 {
        self.record(record).filter(|words| words[KIND] == kind).map_or(0, |words| words[CHILD])
    }

    /// The value that a record is.
    fn value(&self, record: u32, words: &Record) -> Option<Value<'a>> {
        match words[KIND] {
            STRING => Some(Value::String(self.text(words)?)),
            CELL_LIST => Some(Value::CellList { record, width: words[N] }),
            BYTESTRING => Some(Value::Bytestring(self.text(words)?)),
            _ => Some(Value::Reference(self.target(words)?)),
        }
    }

    /// The cell that a record is.
    fn cell(&self, words: &Record) -> Option<Cell<'a>> {
        match words[KIND] {
            NUMBER => Some(Cell::Number(u64::from(words[M]) << 32 | u64::from(words[N]))),
            _ => Some(Cell::Reference(self.target(words)?)),
        }
    }

    /// What the reference that a record is names.
    pub(crate) fn target(&self, words: &Record) -> Option<Target<'a>> {
        let (label, path) = (self.text(words)?, self.second_text(words)?);
        match (words[KIND], words[N]) {
            (REFERENCE, 1) => Some(Target::Label(label)),
            (REFERENCE, 2) => Some(Target::LabelAndPath { label, path }),
            (REFERENCE, 3) => Some(Target::Path(path)),
            _ => None,
        }
    }
}

#[cfg(test)]
mod tests {
    use super::*;

    /// A log with a property in record 1 and these records below it, from record 2 on.
    fn log_of(below: &[Record]) -> Vec<u32> {
        let mut words = vec![0; 16];
        words[1] = 1;
        words.extend([2, 0, 0, 1, 0, 0, 2, 0, 0, 0, 0, 0, 0, 0, 0, 0]);
        words.extend(below.as_flattened());
        words
    }

    fn of(kind: u32, next: u32, texts: [u32; 4], child: u32, n: u32, m: u32) -> Record {
        let [text, length, second, second_length] = texts;
        [kind, next, text, length, second, second_length, child, n, m, 0, 0, 0, 0, 0, 0, 0]
    }

    #[test]
    fn values_and_cells_are_read_whole() {
        let words = log_of(&[
            of(STRING, 3, [1, 2, 0, 0], 0, 0, 0),
            of(CELL_LIST, 4, [0; 4], 6, 64, 0),
            of(BYTESTRING, 5, [0, 3, 0, 0], 0, 0, 0),
            of(REFERENCE, 0, [0, 0, 0, 2], 0, 3, 0),
            of(NUMBER, 7, [0; 4], 0, 1, 2),
            of(REFERENCE, 8, [1, 1, 0, 0], 0, 1, 0),
            of(REFERENCE, 0, [1, 1, 2, 1], 0, 2, 0),
        ]);
        let log = Log::new(&words, b"/ab");
        assert_eq!(
            log.values(1).collect::<Vec<_>>(),
            [
                Value::String(b"ab"),
                Value::CellList { record: 3, width: 64 },
                Value::Bytestring(b"/ab"),
                Value::Reference(Target::Path(b"/a")),
            ]
        );
        assert_eq!(
            log.cells(3).collect::<Vec<_>>(),
            [
                Cell::Number(0x2_0000_0001),
                Cell::Reference(Target::Label(b"a")),
                Cell::Reference(Target::LabelAndPath { label: b"a", path: b"b" }),
            ]
        );
        assert_eq!(log.cells(1).count(), 0);
        assert_eq!(log.values(2).count(), 0);
    }

    #[test]
    fn broken_values_are_read_as_far_as_they_go() {
        let count = |below: &[Record]| Log::new(&log_of(below), b"/").values(1).count();
        assert_eq!(count(&[]), 0, "a link out of the log");
        assert_eq!(count(&[of(STRING, 2, [0; 4], 0, 0, 0)]), 3, "a loop: as many as the log has records");
        assert_eq!(count(&[of(NUMBER, 0, [0; 4], 0, 0, 0)]), 0, "a cell among values");
        assert_eq!(count(&[of(STRING, 0, [1, 1, 0, 0], 0, 0, 0)]), 0, "a text behind the bytes");
        assert_eq!(count(&[of(REFERENCE, 0, [0; 4], 0, 4, 0)]), 0, "a reference of no form");
        let words = log_of(&[of(CELL_LIST, 0, [0; 4], 3, 32, 0), of(STRING, 0, [0; 4], 0, 0, 0)]);
        assert_eq!(Log::new(&words, b"/").cells(2).count(), 0, "a value among cells");
    }
}
