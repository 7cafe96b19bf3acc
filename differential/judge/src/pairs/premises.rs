//! The premises of demand 3, by 01's words and sentences: which of them an insertion breaks.

use super::spot::Spot;
use crate::{
    answer::{Answer, Text},
    by_01::{
        lower::{Lowered, lower},
        paths::{join, under},
        queries::live,
    },
    by_02::short_paths::By,
    tree::{self, Rec},
};

/// What is put in: two items, side by side unless an item of the description stands between them.
#[derive(Debug, Clone)]
pub struct Inserted {
    pub first: Rec,
    pub second: Rec,
    pub apart: bool,
}

impl Inserted {
    /// The description of run B.
    pub fn put_into(&self, top: &[Rec], spot: &Spot) -> Vec<Rec> {
        if self.apart {
            spot.with_apart(top, &self.first, &self.second)
        } else {
            spot.with(top, &[self.first.clone(), self.second.clone()])
        }
    }
}

/// A premise.
#[derive(Debug, Clone, Copy, PartialEq, Eq, PartialOrd, Ord)]
pub enum Premise {
    /// The two stand side by side.
    Adjacent,
    /// They stand in a node body that enters the main log.
    EntersMainLog,
    /// The first is a subnode whose name gives a path: the new one.
    Subnode,
    /// The second is a delete node directive whose name gives that path.
    Deletion,
    /// All nodes in these two have plain names.
    PlainNames,
    /// No node or deletion by reference.
    NoReference,
    NoVersion,
    NoPlugin,
    /// They raise no diagnostic.
    Silent,
    /// Before them, nothing live lies at or under the new path.
    NothingLive,
    /// Before them, no binding lies at or under it.
    NothingBound,
}

/// The ground on which two items are put: what the description up to there lowers to at its level, and the path of
/// the body, if that enters the main log.
pub struct Ground {
    pub before: Answer,
    pub parent: Option<Text>,
    /// How many paths lowering has looked up.
    pub looks: usize,
    level: u32,
}

/// The name of a property that no description has.
const PROBE: &[u8] = b"\x01";

impl Ground {
    /// A body enters the main log if a property put there would be the log's next definition.
    pub fn at(top: &[Rec], level: u32, spot: &Spot) -> Self {
        let Lowered { answer: before, looks, .. } = lower(&spot.until(top, &[]), level);
        let looks = looks.iter().filter(|look| look.by != By::PostCheck).count();
        let name = Rec { kind: tree::NAME, text: PROBE.to_vec(), ..Rec::default() };
        let probe = Rec { kind: tree::PROPERTY, child: vec![name], ..Rec::default() };
        let with = lower(&spot.until(top, &[probe]), level).answer.definitions;
        let next = with.get(before.definitions.len());
        let above = next.and_then(|next| next.path.strip_suffix(PROBE)?.strip_suffix(b"/"));
        let parent = above.map(|above| if above.is_empty() { b"/".to_vec() } else { above.to_vec() });
        Self { before, parent, looks, level }
    }
}

/// The new path, empty if there is none, and the premises that are broken.
pub fn judged(top: &[Rec], spot: &Spot, ground: &Ground, inserted: &Inserted) -> (Text, Vec<Premise>) {
    let (Inserted { first, second, apart }, Ground { before, parent, level, .. }) = (inserted, ground);
    let named = |rec: &Rec| Some(join(parent.as_ref()?, &full_name(rec)?));
    let new = named(first);
    let after = lower(&spot.until(top, &[first.clone(), second.clone()]), *level).answer;
    let deletes = second.kind == tree::DIRECTIVE && second.w == 4 && named(second) == new;
    let live_there = |path: &Text| !live(&before.definitions, path).is_empty();
    let bound_there = |path: &Text| before.bindings.iter().any(|binding| under(&binding.path, path));
    let either = |is: &dyn Fn(&Rec) -> bool| holds_item(first, is) || holds_item(second, is);
    let directive = |w: u32| either(&|rec| rec.kind == tree::DIRECTIVE && rec.w == w);
    let broken = [
        (Premise::Adjacent, *apart),
        (Premise::EntersMainLog, parent.is_none()),
        (Premise::Subnode, first.kind != tree::NODE || !plain_name(first)),
        (Premise::Deletion, !deletes),
        (Premise::PlainNames, either(&odd_name)),
        (Premise::NoReference, either(&by_reference)),
        (Premise::NoVersion, directive(1)),
        (Premise::NoPlugin, directive(2)),
        (Premise::Silent, after.lowering.len() != before.lowering.len()),
        (Premise::NothingLive, new.as_ref().is_some_and(live_there)),
        (Premise::NothingBound, new.as_ref().is_some_and(bound_there)),
    ];
    let broken = broken.into_iter().filter(|(_, broken)| *broken).map(|(premise, _)| premise);
    (new.clone().unwrap_or_default(), broken.collect())
}

/// The name with its unit address, if both are names.
pub fn full_name(rec: &Rec) -> Option<Text> {
    let name = &rec.first(tree::NAME)?.text;
    match rec.first(tree::UNIT_ADDRESS) {
        None => Some(name.clone()),
        Some(unit) => Some([name, &b"@"[..], &unit.first(tree::NAME)?.text].concat()),
    }
}

/// "a name (5), with or without a unit address that holds one, and no slash or reference beside it"
fn plain_name(node: &Rec) -> bool {
    let beside = node.first(tree::SLASH).or(node.first(tree::REFERENCE));
    full_name(node).is_some() && beside.is_none()
}

/// A node that is not by reference and has no plain name.
fn odd_name(rec: &Rec) -> bool {
    rec.kind == tree::NODE && rec.first(tree::REFERENCE).is_none() && !plain_name(rec)
}

/// "By reference: with an 8 among its parts."
fn by_reference(rec: &Rec) -> bool {
    let deletion = rec.kind == tree::DIRECTIVE && matches!(rec.w, 4 | 5);
    (rec.kind == tree::NODE || deletion) && rec.first(tree::REFERENCE).is_some()
}

/// Whether an item, or one in its body at any depth, is of a sort.
fn holds_item(rec: &Rec, is: &dyn Fn(&Rec) -> bool) -> bool {
    is(rec) || rec.kind == tree::NODE && rec.more.iter().any(|item| holds_item(item, is))
}
