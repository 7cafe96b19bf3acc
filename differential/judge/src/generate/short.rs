//! Names with unit addresses, and references that leave them out (02, request 5).

use super::Maker;
use crate::{
    by_02::short_paths::before_at,
    tree::{self, Rec},
};

/// Few names, one of them the beginning of another.
const BASES: [&str; 5] = ["bay", "rack", "bayou", "lamp", "\u{e9}"];
const UNITS: [&str; 5] = ["1", "2", "0", "", "1@2"];

/// A component without its unit address.
fn short(component: &str) -> &str {
    &component[..before_at(component.as_bytes()).len()]
}

impl Maker {
    /// A root with a few nodes, two deep, so that there is something to refer to.
    pub(super) fn racks(&mut self) -> Rec {
        let mut root = self.rec(tree::NODE);
        root.child.push(self.rec(tree::SLASH));
        for _ in 0..1 + self.random.below(3) {
            let inner = self.random.weighted(&[2, 3, 1]);
            let rack = self.rack("", inner);
            root.more.push(rack);
        }
        root
    }

    /// A node with a name, perhaps a label, and so many nodes in it.
    fn rack(&mut self, parent: &str, inner: usize) -> Rec {
        let mut node = self.rec(tree::NODE);
        let name = self.addressed();
        let path = format!("{parent}/{name}");
        node.child = self.addressed_parts(&name);
        if self.random.once_in(3) {
            let label = self.label(3);
            node.child.push(label);
        }
        self.paths.push(path.clone());
        self.bind(&node, &path);
        for _ in 0..inner {
            let rack = self.rack(&path, 0);
            node.more.push(rack);
        }
        node
    }

    /// A node by a label that nothing is bound to, with racks and references to them in its own body.
    pub(super) fn own_body(&mut self) -> Rec {
        let mut node = self.rec(tree::NODE);
        node.child.push(self.text(tree::REFERENCE, "u"));
        if self.random.once_in(4) {
            let directive = self.directive(2, 2);
            node.more.push(directive);
        }
        for _ in 0..1 + self.random.below(3) {
            let rack = self.rack("", 0);
            node.more.push(rack);
        }
        for _ in 0..1 + self.random.below(2) {
            let (kind, w) = self.random.pick(&[(tree::NODE, 0), (tree::DIRECTIVE, 4)]);
            let mut inner = Rec { w, ..self.rec(kind) };
            let raw = self.short_raw();
            inner.child.push(Rec { w: 1, ..self.text(tree::REFERENCE, &raw) });
            node.more.push(inner);
        }
        node
    }

    /// A name, often with a unit address.
    pub(super) fn addressed(&mut self) -> String {
        let base = BASES[self.random.below(self.names.min(BASES.len()))];
        match self.random.weighted(&[12, 24, 1]) {
            0 => base.to_owned(),
            1 => {
                let end = if self.random.once_in(6) { UNITS.len() } else { 2 };
                format!("{base}@{}", UNITS[self.random.below(end)])
            }
            _ => "@1".to_owned(),
        }
    }

    /// The parts that give a node such a name: one name, or a name and a unit address.
    pub(super) fn addressed_parts(&mut self, name: &str) -> Vec<Rec> {
        match name.split_once('@') {
            Some((base, unit)) if !base.is_empty() && !unit.is_empty() && !self.random.once_in(3) => {
                let parts = [self.text(tree::NAME, base), self.text(tree::NAME, unit)];
                let [base, unit] = parts;
                vec![base, Rec { child: vec![unit], ..self.rec(tree::UNIT_ADDRESS) }]
            }
            _ => vec![self.text(tree::NAME, name)],
        }
    }

    /// The raw text of a reference to a path made before, mostly with unit addresses left out.
    pub(super) fn short_raw(&mut self) -> String {
        let form = self.random.weighted(&[10, 5, 1, 2, 1]);
        if self.paths.is_empty() || form == 3 {
            let names: Vec<String> = (0..1 + self.random.below(3)).map(|_| self.addressed()).collect();
            return format!("&{{/{}}}", names.iter().map(|name| short(name)).collect::<Vec<_>>().join("/"));
        }
        let full = self.paths[self.random.below(self.paths.len())].clone();
        self.meant = Some(full.clone());
        match form {
            1 => self.with_label(&full),
            2 => format!("&{{{}}}", self.out_of_form(&full)),
            4 => format!("&{{{full}}}"),
            _ => format!("&{{{}}}", self.shortened(&full)),
        }
    }

    /// A path with the unit addresses of some components left out, or all; seldom with an @ that stays.
    fn shortened(&mut self, full: &str) -> String {
        let how = self.random.weighted(&[8, 6, 1]);
        let mut components: Vec<String> = full.split('/').map(str::to_owned).collect();
        let last = components.len() - 1;
        for (place, component) in components.iter_mut().enumerate() {
            let cut = short(component).to_owned();
            match how {
                0 => *component = cut,
                1 if self.random.once_in(2) => *component = cut,
                2 if place == last => *component = cut + "@",
                _ => {}
            }
        }
        components.join("/")
    }

    /// The same behind a label that is bound to what is above, as it is or at another unit address.
    fn with_label(&mut self, full: &str) -> String {
        let path = self.shortened(full);
        let components: Vec<&str> = path.split('/').collect();
        let is_above = |bound: &str| {
            let bound: Vec<&str> = bound.split('/').filter(|part| !part.is_empty()).collect();
            let above = components.iter().skip(1).zip(&bound);
            bound.len() + 1 < components.len()
                && above.into_iter().all(|(one, other)| short(one) == short(other))
        };
        let fit: Vec<&(String, String)> = self.bound.iter().filter(|(_, bound)| is_above(bound)).collect();
        if fit.is_empty() {
            return format!("&{{{path}}}");
        }
        let (label, bound) = fit[self.random.below(fit.len())];
        let above = bound.split('/').filter(|part| !part.is_empty()).count();
        format!("&{{{label}/{}}}", components[above + 1..].join("/"))
    }

    /// A path that has not row 9's form, though its components may match.
    fn out_of_form(&mut self, full: &str) -> String {
        let path = self.shortened(full);
        match self.random.below(4) {
            0 => path + "/",
            1 => format!("/{path}"),
            2 => path.rsplit_once('/').map_or(String::new(), |(above, last)| format!("{above}//{last}")),
            _ => path.rsplit_once('/').map_or(String::new(), |(above, _)| format!("{above}/")),
        }
    }

    /// Notes the labels of a node at a path.
    pub(super) fn bind(&mut self, node: &Rec, path: &str) {
        for label in node.child.iter().filter(|part| part.kind == tree::LABEL) {
            if let Some(name) = label.first(tree::NAME).and_then(|name| str::from_utf8(&name.text).ok()) {
                self.bound.push((name.to_owned(), path.to_owned()));
            }
        }
    }
}
