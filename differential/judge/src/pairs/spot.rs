//! Places in the bodies of a description.

use crate::{
    random::Random,
    tree::{self, Rec},
};

/// A place in a node's body: the way to the node from the top, by places of items, and how many items
/// of the body come before. The top itself has an empty way.
#[derive(Debug, Clone)]
pub struct Spot {
    way: Vec<usize>,
    pub before: usize,
}

impl Spot {
    /// A place at the top, or in the body of any node.
    pub fn any(top: &[Rec], random: &mut Random) -> Self {
        let mut ways = Vec::new();
        bodies(top, &mut Vec::new(), &mut ways);
        let way = ways.swap_remove(random.below(ways.len()));
        let items = way.iter().fold(top, |items, place| &items[*place].more);
        Self { before: random.below(items.len() + 1), way }
    }

    pub fn is_top(&self) -> bool {
        self.way.is_empty()
    }

    /// How many links lead to an item there.
    pub fn links(&self) -> u32 {
        self.way.len() as u32 + 1
    }

    /// The node in whose body it lies.
    pub fn node<'a>(&self, top: &'a [Rec]) -> Option<&'a Rec> {
        let (last, above) = self.way.split_last()?;
        let items = above.iter().fold(top, |items, place| &items[*place].more);
        items.get(*last)
    }

    /// The item behind it.
    pub fn next<'a>(&self, top: &'a [Rec]) -> Option<&'a Rec> {
        self.way.iter().fold(top, |items, place| &items[*place].more).get(self.before)
    }

    /// The description with items put there.
    pub fn with(&self, top: &[Rec], items: &[Rec]) -> Vec<Rec> {
        changed(top, &self.way, &|body| [&body[..self.before], items, &body[self.before..]].concat())
    }

    /// The description with one item put there and another one item further on.
    pub fn with_apart(&self, top: &[Rec], first: &Rec, second: &Rec) -> Vec<Rec> {
        changed(top, &self.way, &|body| {
            let mut body = body.to_vec();
            let behind = (self.before + 1).min(body.len());
            body.insert(behind, second.clone());
            body.insert(self.before, first.clone());
            body
        })
    }

    /// The description up to there, with items put there: nothing that comes later.
    pub fn until(&self, top: &[Rec], items: &[Rec]) -> Vec<Rec> {
        let mut top = changed(top, &self.way, &|body| [&body[..self.before], items].concat());
        let mut chain = &mut top;
        for place in &self.way {
            chain.truncate(place + 1);
            chain = &mut chain[*place].more;
        }
        top
    }
}

/// The ways to all bodies below a chain, the chain's own first.
fn bodies(chain: &[Rec], way: &mut Vec<usize>, ways: &mut Vec<Vec<usize>>) {
    ways.push(way.clone());
    for (place, rec) in chain.iter().enumerate().filter(|(_, rec)| rec.kind == tree::NODE) {
        way.push(place);
        bodies(&rec.more, way, ways);
        way.pop();
    }
}

/// A chain in which the body at the end of a way is changed.
fn changed(chain: &[Rec], way: &[usize], change: &dyn Fn(&[Rec]) -> Vec<Rec>) -> Vec<Rec> {
    let Some((first, rest)) = way.split_first() else { return change(chain) };
    let mut chain = chain.to_vec();
    chain[*first].more = changed(&chain[*first].more, rest, change);
    chain
}
