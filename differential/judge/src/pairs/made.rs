//! New subnodes and their deletions.

use crate::{
    random::Random,
    tree::{self, Rec, Span},
};

/// Few names and labels, most of which generated descriptions have too.
const NAMES: [&str; 9] = ["a", "b", "ab", "c", "x", "new", "a@1", "a-b", "\u{e9}"];
const LABELS: [&str; 5] = ["l", "m", "n", "a", "lm"];
const UNITS: [&str; 3] = ["1", "0", "a"];
const RAW: [&str; 6] = ["&{/a}", "&{/}", "&{l/a}", "&{l//}", "&{/new}", "&{m}"];

/// Those for descriptions with short paths.
const ADDRESSED: [&str; 9] =
    ["bay", "bay@1", "bay@2", "bay@7", "rack", "rack@1", "rack@7", "bayou@1", "lamp@1"];
const SHORT: [&str; 5] = ["&{/bay}", "&{/rack/bay}", "&{l/bay}", "&{/rack}", "&{/bay@1}"];

/// Makes items that raise no diagnostic, with plain names and nothing by reference.
pub struct Maker {
    pub random: Random,
    /// For a description with short paths.
    pub short: bool,
}

impl Maker {
    fn span(&mut self) -> Span {
        let start = self.random.below(1000) as u32;
        (start, start + self.random.below(9) as u32)
    }

    pub fn rec(&mut self, kind: u32) -> Rec {
        Rec { kind, span: self.span(), ..Rec::default() }
    }

    pub fn text(&mut self, kind: u32, text: &[u8]) -> Rec {
        Rec { text: text.to_vec(), ..self.rec(kind) }
    }

    pub fn name(&mut self) -> Rec {
        let name = if self.short { self.random.pick(&ADDRESSED) } else { self.random.pick(&NAMES) };
        self.text(tree::NAME, name.as_bytes())
    }

    pub fn label(&mut self, name: Option<&[u8]>) -> Rec {
        let any = self.random.pick(&LABELS).as_bytes();
        let name = self.text(tree::NAME, name.unwrap_or(any));
        Rec { child: vec![name], ..self.rec(tree::LABEL) }
    }

    /// A name, mostly alone, else with a unit address.
    fn full_name(&mut self) -> Vec<Rec> {
        let mut parts = vec![self.name()];
        if self.random.once_in(4) {
            let unit = self.random.pick(&UNITS);
            let name = self.text(tree::NAME, unit.as_bytes());
            parts.push(Rec { child: vec![name], ..self.rec(tree::UNIT_ADDRESS) });
        }
        parts
    }

    /// A node with a name of these parts, or any.
    pub fn node(&mut self, name: Option<Vec<Rec>>, levels: usize) -> Rec {
        let mut node = self.rec(tree::NODE);
        node.child = name.unwrap_or_else(|| self.full_name());
        for _ in 0..self.random.weighted(&[3, 3, 1]) {
            node.child.push(self.label(None));
        }
        if self.random.once_in(6) {
            node.child.push(self.rec(tree::OMIT));
        }
        if self.random.once_in(6) {
            node.child.push(self.text(tree::MACRO, b"M"));
        }
        if self.random.once_in(6) {
            node.child.push(self.name());
        }
        for _ in 0..self.random.weighted(&[2, 3, 2, 1]) {
            let item = self.item(levels);
            node.more.push(item);
        }
        node
    }

    /// An item of a node, with nodes in nodes down to so many levels.
    pub fn item(&mut self, levels: usize) -> Rec {
        match self.random.weighted(&[if levels > 0 { 5 } else { 0 }, 5, 2, 1, 1]) {
            0 => self.node(None, levels - 1),
            1 => self.property(),
            2 => self.deletion(None),
            w => {
                let name = self.name();
                let w = if w == 3 { 5 } else { 6 };
                Rec { w, child: vec![name], ..self.rec(tree::DIRECTIVE) }
            }
        }
    }

    /// A delete node directive with a name of these parts, or any.
    pub fn deletion(&mut self, name: Option<Vec<Rec>>) -> Rec {
        let child = name.unwrap_or_else(|| self.full_name());
        Rec { w: 4, child, ..self.rec(tree::DIRECTIVE) }
    }

    fn property(&mut self) -> Rec {
        let mut property = self.rec(tree::PROPERTY);
        property.child = self.full_name();
        for _ in 0..self.random.below(3) {
            let value = self.value();
            property.more.push(value);
        }
        property
    }

    fn value(&mut self) -> Rec {
        match self.random.below(5) {
            0 => self.text(tree::STRING, b"okay"),
            1 => self.text(tree::BYTESTRING, b"[0f 1]0"),
            2 => self.reference(),
            3 => self.shifted(),
            _ => {
                let number = self.text(tree::NUMBER, b"0x10");
                let reference = self.reference();
                Rec { child: vec![number, reference], ..self.rec(tree::CELL_LIST) }
            }
        }
    }

    /// A cell list of 64 bits with -1 >> 60, which the levels answer differently.
    fn shifted(&mut self) -> Rec {
        let one = self.text(tree::NUMBER, b"1");
        let minus = Rec { w: 2, child: vec![one], ..self.rec(tree::PREFIX) };
        let amount = self.text(tree::NUMBER, b"60");
        let shift = Rec { w: 10, child: vec![minus, amount], ..self.rec(tree::INFIX) };
        let cell = Rec { child: vec![shift], ..self.rec(tree::EXPRESSION) };
        Rec { child: vec![cell], ..self.text(tree::CELL_LIST, b"64") }
    }

    /// A reference that can be read.
    pub fn reference(&mut self) -> Rec {
        if self.random.once_in(2) {
            let label = self.random.pick(&LABELS);
            return self.text(tree::REFERENCE, label.as_bytes());
        }
        let raw = if self.short { self.random.pick(&SHORT) } else { self.random.pick(&RAW) };
        Rec { w: 1, ..self.text(tree::REFERENCE, raw.as_bytes()) }
    }
}

/// The parts of an item that make up its name: the first name and the first unit address, with other
/// spans.
pub fn name_parts(rec: &Rec) -> Vec<Rec> {
    let parts = [rec.first(tree::NAME), rec.first(tree::UNIT_ADDRESS)];
    parts.into_iter().flatten().cloned().map(|part| Rec { span: (0, 0), ..part }).collect()
}
