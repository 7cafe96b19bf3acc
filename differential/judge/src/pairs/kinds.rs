//! Insertions that meet all premises of demand 3, and those that break one.

use super::{
    made::{Maker, name_parts},
    premises::{Ground, Inserted, Premise},
};
use crate::{
    answer::Answer,
    by_01::{
        paths::{join, strip},
        queries,
    },
    random::Random,
    tree::{self, Rec},
};

/// A kind of insertion: the premises that it breaks, and how it is made; none if there is nothing to
/// make it of.
pub struct Kind {
    pub name: &'static str,
    pub breaks: &'static [Premise],
    pub make: fn(&mut Hand) -> Option<Inserted>,
}

/// What an insertion is made with: what there is before it, and the path of the body.
pub struct Hand<'a> {
    maker: Maker,
    before: &'a Answer,
    parent: &'a [u8],
}

const fn breaks(
    name: &'static str,
    breaks: &'static [Premise],
    make: fn(&mut Hand) -> Option<Inserted>,
) -> Kind {
    Kind { name, breaks, make }
}

/// The first meets all premises.
pub static KINDS: [Kind; 20] = [
    breaks("all premises met", &[], |hand| Some(hand.pair(None))),
    breaks("something live there before", &[Premise::NothingLive], |hand| hand.live_before()),
    breaks("a binding there before", &[Premise::NothingBound], |hand| hand.bound_before()),
    breaks("a diagnostic in it", &[Premise::Silent], |hand| {
        let item = hand.maker.rec(tree::PREPROCESSOR);
        Some(hand.pair(Some(item)))
    }),
    breaks("a value that is reported", &[Premise::Silent], |hand| {
        let value = hand.maker.text(tree::BYTESTRING, b"[1]");
        let name = hand.maker.name();
        let property = Rec { child: vec![name], more: vec![value], ..hand.maker.rec(tree::PROPERTY) };
        Some(hand.pair(Some(property)))
    }),
    breaks("a version directive in it", &[Premise::NoVersion], |hand| Some(hand.with_directive(1))),
    breaks("a plugin directive in it", &[Premise::NoPlugin], |hand| Some(hand.with_directive(2))),
    breaks("a node by reference in it", &[Premise::NoReference], |hand| {
        let reference = hand.maker.reference();
        let items = vec![hand.maker.item(0)];
        let node = Rec { child: vec![reference], more: items, ..hand.maker.rec(tree::NODE) };
        Some(hand.pair(Some(node)))
    }),
    breaks("a deletion by reference in it", &[Premise::NoReference], |hand| {
        let reference = hand.maker.reference();
        let deletion = hand.maker.deletion(Some(vec![reference]));
        Some(hand.pair(Some(deletion)))
    }),
    breaks("a node without a name in it", &[Premise::PlainNames], |hand| {
        let labelled = hand.labelled();
        let node = Rec { more: vec![labelled], ..hand.maker.rec(tree::NODE) };
        Some(hand.pair(Some(node)))
    }),
    breaks("a node in it whose unit address has no name", &[Premise::PlainNames], |hand| {
        let labelled = hand.labelled();
        let (name, unit) = (hand.maker.name(), hand.maker.rec(tree::UNIT_ADDRESS));
        let node = Rec { child: vec![name, unit], more: vec![labelled], ..hand.maker.rec(tree::NODE) };
        Some(hand.pair(Some(node)))
    }),
    breaks("a root in it", &[Premise::PlainNames, Premise::Silent], |hand| {
        let slash = hand.maker.rec(tree::SLASH);
        let node = Rec { child: vec![slash], ..hand.maker.rec(tree::NODE) };
        Some(hand.pair(Some(node)))
    }),
    breaks("the deletion of another path", &[Premise::Deletion], |hand| {
        let Inserted { first, .. } = hand.pair(None);
        Some(Inserted { first, second: hand.maker.deletion(None), apart: false })
    }),
    breaks("the deletion of a property", &[Premise::Deletion], |hand| {
        let Inserted { first, second, apart } = hand.pair(None);
        Some(Inserted { first, second: Rec { w: 5, ..second }, apart })
    }),
    breaks("the deletion by reference", &[Premise::Deletion, Premise::NoReference], |hand| {
        let Inserted { first, .. } = hand.pair(None);
        let reference = hand.maker.reference();
        Some(Inserted { first, second: hand.maker.deletion(Some(vec![reference])), apart: false })
    }),
    breaks("no deletion", &[Premise::Deletion], |hand| {
        let Inserted { first, second, apart } = hand.pair(None);
        Some(Inserted { first, second: Rec { w: 6, ..second }, apart })
    }),
    breaks("the deletion first", &[Premise::Subnode, Premise::Deletion], |hand| {
        let Inserted { first, second, apart } = hand.pair(None);
        Some(Inserted { first: second, second: first, apart })
    }),
    breaks("an item between", &[Premise::Adjacent], |hand| Some(Inserted { apart: true, ..hand.pair(None) })),
    breaks("in a body that is no part of the main log", &[Premise::EntersMainLog], |hand| {
        Some(hand.pair(None))
    }),
    breaks("at the top", &[Premise::EntersMainLog, Premise::Silent], |hand| Some(hand.pair(None))),
];

impl<'a> Hand<'a> {
    pub fn new(random: Random, ground: &'a Ground, short: bool) -> Self {
        let parent = ground.parent.as_deref().unwrap_or(b"/");
        Self { maker: Maker { random, short }, before: &ground.before, parent }
    }

    /// A subnode and its deletion; an item may be put into the subnode, or into a node in it.
    fn pair(&mut self, item: Option<Rec>) -> Inserted {
        let mut first = self.maker.node(None, 2);
        if let Some(item) = item {
            let body = match first.more.iter_mut().find(|item| item.kind == tree::NODE) {
                Some(inner) if self.maker.random.once_in(2) => &mut inner.more,
                _ => &mut first.more,
            };
            body.insert(self.maker.random.below(body.len() + 1), item);
        }
        let second = self.maker.deletion(Some(name_parts(&first)));
        Inserted { first, second, apart: false }
    }

    fn with_directive(&mut self, w: u32) -> Inserted {
        let directive = Rec { w, ..self.maker.rec(tree::DIRECTIVE) };
        self.pair(Some(directive))
    }

    /// A node with a label.
    fn labelled(&mut self) -> Rec {
        let (label, name) = (self.maker.label(None), self.maker.name());
        Rec { child: vec![label, name], ..self.maker.rec(tree::NODE) }
    }

    /// A subnode at a path where, or under which, something is live.
    fn live_before(&mut self) -> Option<Inserted> {
        let live = queries::live(&self.before.definitions, self.parent);
        let paths: Vec<&[u8]> = live.iter().map(|place| &self.before.definitions[*place].path[..]).collect();
        let name = self.component(&paths)?;
        Some(self.pair_named(&name, None))
    }

    /// A subnode at a path where, or under which, a binding lies and nothing is live, with its label.
    fn bound_before(&mut self) -> Option<Inserted> {
        let dead = |path: &&[u8]| queries::live(&self.before.definitions, path).is_empty();
        let paths = self.before.bindings.iter().map(|binding| &binding.path[..]).filter(dead);
        let name = self.component(&paths.collect::<Vec<_>>())?;
        let path = join(self.parent, &name);
        let binding = self.before.bindings.iter().find(|binding| binding.path == path);
        let label = binding.map(|binding| binding.label.clone());
        Some(self.pair_named(&name, label))
    }

    fn pair_named(&mut self, name: &[u8], label: Option<Vec<u8>>) -> Inserted {
        let name = vec![self.maker.text(tree::NAME, name)];
        let mut first = self.maker.node(Some(name.clone()), 2);
        first.child.extend(label.map(|label| self.maker.label(Some(&label))));
        Inserted { first, second: self.maker.deletion(Some(name)), apart: false }
    }

    /// The name that follows the body's path in one of these paths.
    fn component(&mut self, paths: &[&[u8]]) -> Option<Vec<u8>> {
        let parent = self.parent;
        let below = |path: &&[u8]| {
            let rest = strip(path, parent)?.strip_prefix(b"/")?;
            let name = rest.split(|byte| *byte == b'/').next()?;
            (!name.is_empty()).then(|| name.to_vec())
        };
        let mut names: Vec<Vec<u8>> = paths.iter().filter_map(below).collect();
        (!names.is_empty()).then(|| names.swap_remove(self.maker.random.below(names.len())))
    }
}
