//! Nodes, directives, names and references.

use super::Maker;
use crate::tree::{self, Place, Rec};

const UNITS: [&str; 5] = ["1", "0", "a", "1@1", "\u{3b1}"];
const LABELS: [&str; 7] = ["l", "m", "n", "a", "lm", "\u{e9}", "l}"];
const MACROS: [&str; 6] = ["M", "X", "MM", "", "<unknown>", "a"];
const RAW: [&str; 24] = [
    "&{/}", "&{//}", "&{/a/}", "&{//a}", "&{/a//b}", "&{l//}", "&{l/}", "&{}", "&{l}}", "&{l}", "&l", "&{",
    "}", "&{l/a", "{l}", "", "&{}}", "&{/", "&{/a", "&{a}", " &{/}", "&{/} ", "&{m//}", "&{n/}",
];

impl Maker {
    pub(super) fn node(&mut self, parent: &str, depth: u32) -> Rec {
        let mut node = self.rec(tree::NODE);
        let below = depth + 1;
        let labels = self.random.weighted(&[8, 6, 2]);
        for _ in 0..labels {
            let label = self.label(below);
            node.child.push(label);
        }
        let path = self.named_by(&mut node, parent, below);
        if self.random.once_in(6) {
            node.child.push(self.rec(tree::OMIT));
        }
        if self.random.once_in(12) {
            self.any_parts(&mut node, Place::NodePart, below);
        }
        self.shuffle(&mut node.child);
        if self.paths.len() < 50 {
            self.paths.push(path.clone());
        }
        if self.short {
            self.bind(&node, &path);
        }
        if self.overlay && self.random.once_in(6) {
            self.overlay_body(&mut node, &path, below);
        }
        self.body(&mut node, &path, depth);
        node
    }

    /// How often a node has a slash, a name, a reference, none of these, or any parts.
    fn forms(&self, at_top: bool) -> &'static [usize] {
        match (at_top, self.deep) {
            (true, false) if self.short => &[4, 1, 12, 1, 1],
            (true, false) => &[9, 2, 8, 1, 1],
            (true, true) => &[9, 0, 2, 0, 0],
            (false, false) if self.short => &[1, 14, 8, 1, 1],
            (false, false) => &[1, 14, 4, 1, 1],
            (false, true) => &[0, 120, 2, 1, 0],
        }
    }

    /// Gives a node what it goes by: its path, as far as can be told here.
    fn named_by(&mut self, node: &mut Rec, parent: &str, depth: u32) -> String {
        let path = if parent.is_empty() { "/".to_owned() } else { parent.to_owned() };
        match self.random.weighted(self.forms(parent.is_empty())) {
            0 => {
                node.child.push(self.rec(tree::SLASH));
                return "/".to_owned();
            }
            1 => {
                let name = self.name();
                self.name_parts(node, &name, depth);
                return format!("{}/{name}", parent.trim_end_matches('/'));
            }
            2 => {
                self.meant = None;
                let reference = self.reference(depth);
                node.child.push(reference);
                return self.meant.take().unwrap_or(path);
            }
            3 => {}
            _ => self.any_parts(node, Place::NodePart, depth),
        }
        path
    }

    /// The parts of a name, sometimes with a unit address and a slash.
    fn name_parts(&mut self, node: &mut Rec, name: &str, depth: u32) {
        if self.short {
            return node.child.extend(self.addressed_parts(name));
        }
        node.child.push(self.text(tree::NAME, name));
        if self.random.once_in(5) {
            let unit = self.unit_address(depth);
            node.child.push(unit);
            if self.random.once_in(6) {
                node.child.push(self.rec(tree::SLASH));
            }
        }
    }

    /// A node's items. In a deep description one goes further down, the others do not.
    fn body(&mut self, node: &mut Rec, path: &str, depth: u32) {
        let below = depth + 1;
        let deep = std::mem::take(&mut self.deep);
        let items = if deep { &[4, 2, 1, 0, 0, 0] } else { &[2, 4, 3, 2, 2, 1] };
        for _ in 0..self.random.weighted(items) {
            if self.room > 0 && Self::fits(depth, 1) {
                let item = self.item(path, below);
                node.more.push(item);
            }
        }
        self.deep = deep;
        if deep && self.room > 0 && Self::fits(below, 2) {
            let item = self.node(path, below);
            node.more.push(item);
        }
    }

    /// Items that make a body an overlay of its own: a plugin directive, and a node by a reference.
    fn overlay_body(&mut self, node: &mut Rec, path: &str, depth: u32) {
        if Self::fits(depth, 3) && self.room > 0 {
            let directive = self.directive(2, depth);
            node.more.push(directive);
            let mut inner = self.rec(tree::NODE);
            let reference = self.reference(depth + 1);
            inner.child.push(reference);
            if self.random.once_in(2) && self.room > 0 {
                let item = self.item(path, depth + 1);
                inner.more.push(item);
            }
            node.more.push(inner);
        }
    }

    /// A few parts of any kind that fits.
    pub(super) fn any_parts(&mut self, rec: &mut Rec, place: Place, depth: u32) {
        for _ in 0..self.random.below(4) {
            let kind = self.random.pick(place.kinds());
            let part = self.part(kind, depth);
            rec.child.push(part);
        }
    }

    fn part(&mut self, kind: u32, depth: u32) -> Rec {
        match kind {
            tree::NAME => {
                let name = self.name();
                self.text(kind, &name)
            }
            tree::UNIT_ADDRESS => self.unit_address(depth),
            tree::LABEL => self.label(depth),
            tree::REFERENCE => self.reference(depth),
            tree::MACRO => self.invocation(),
            _ => self.rec(kind),
        }
    }

    fn shuffle(&mut self, parts: &mut [Rec]) {
        if self.random.once_in(3) {
            for end in (1..parts.len()).rev() {
                parts.swap(end, self.random.below(end + 1));
            }
        }
    }

    pub(super) fn label(&mut self, depth: u32) -> Rec {
        let mut label = self.rec(tree::LABEL);
        let end = if self.random.once_in(8) { LABELS.len() } else { 3 };
        let name = LABELS[self.random.below(end)];
        self.named(&mut label, name, depth);
        label
    }

    pub(super) fn unit_address(&mut self, depth: u32) -> Rec {
        let mut unit = self.rec(tree::UNIT_ADDRESS);
        let end = if self.random.once_in(8) { UNITS.len() } else { 2 };
        let name = UNITS[self.random.below(end)];
        self.named(&mut unit, name, depth);
        unit
    }

    /// A name below a label or unit address; sometimes a macro, both, or nothing.
    fn named(&mut self, rec: &mut Rec, name: &str, depth: u32) {
        if !Self::fits(depth, 1) {
            return;
        }
        let form = self.random.weighted(&[20, 2, 1, 1, 1]);
        if form == 1 || form == 2 {
            rec.child.push(self.invocation());
        }
        if form == 0 || form == 2 || form == 3 {
            rec.child.push(self.text(tree::NAME, name));
        }
        if form == 3 {
            let kind = self.random.pick(Place::LabelPart.kinds());
            let part = self.part(kind, depth + 1);
            rec.child.push(part);
        }
    }

    pub(super) fn invocation(&mut self) -> Rec {
        let name = self.random.pick(&MACROS);
        self.text(tree::MACRO, name)
    }

    pub(super) fn reference(&mut self, depth: u32) -> Rec {
        let by_label = self.random.once_in(if self.short { 4 } else { 2 });
        let mut reference = if by_label {
            let end = if self.random.once_in(4) { LABELS.len() } else { 3 };
            let label = if self.random.once_in(16) { "" } else { LABELS[self.random.below(end)] };
            self.text(tree::REFERENCE, label)
        } else {
            let raw = self.raw();
            Rec { w: 1, ..self.text(tree::REFERENCE, &raw) }
        };
        if self.random.once_in(12) && Self::fits(depth, 1) {
            reference.child.push(self.invocation());
            if self.random.once_in(3) {
                reference.child.push(self.invocation());
            }
        }
        reference
    }

    fn raw(&mut self) -> String {
        if self.short && !self.random.once_in(8) {
            return self.short_raw();
        }
        match self.random.weighted(&[5, 3, 5, 2]) {
            0 if !self.paths.is_empty() => {
                let at = self.random.below(self.paths.len());
                format!("&{{{}}}", self.paths[at])
            }
            0 | 1 => format!("&{{/{}}}", self.few_names()),
            2 => format!("&{{{}/{}}}", self.random.pick(&LABELS[..3]), self.few_names()),
            _ => self.random.pick(&RAW).to_owned(),
        }
    }

    fn few_names(&mut self) -> String {
        let names: Vec<String> = (0..1 + self.random.weighted(&[3, 2, 1])).map(|_| self.name()).collect();
        names.join("/")
    }

    pub(super) fn directive(&mut self, w: u32, depth: u32) -> Rec {
        let mut directive = Rec { w, ..self.rec(tree::DIRECTIVE) };
        if !Self::fits(depth, 1) {
            return directive;
        }
        let below = depth + 1;
        let form = if w == 4 || w == 5 {
            self.random.weighted(&[8, 2, 5, 1, 1])
        } else {
            self.random.weighted(&[0, 0, 0, 1, 9])
        };
        match form {
            0 | 1 => {
                let name = self.name();
                directive.child.push(self.text(tree::NAME, &name));
                if form == 1 {
                    let unit = self.unit_address(below);
                    directive.child.push(unit);
                }
            }
            2 => {
                let reference = self.reference(below);
                directive.child.push(reference);
            }
            3 => self.any_parts(&mut directive, Place::DirectivePart, below),
            _ => {}
        }
        directive
    }
}
