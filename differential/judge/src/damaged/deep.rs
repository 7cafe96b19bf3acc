//! Descriptions of a given depth.

use crate::{
    random::Random,
    tree::{self, Rec},
};

/// A top item whose deepest record lies at so many links, by a link of any sort: nodes in nodes, and in
/// the last an item, a part, a value, cells or expressions.
pub fn deep(links: u32, random: &mut Random) -> Rec {
    let form = random.below(5);
    // The last node lies so deep that the rest takes up what is left.
    let nodes = match form {
        0 => links,
        1 => links - 1,
        2 => links - 2,
        3 => links - 3,
        _ => 1 + random.below(40) as u32,
    };
    let mut rec = node(nodes, links);
    match form {
        0 => {}
        1 => rec.child.push(name(b"n")),
        _ => rec.more.push(property(links - nodes)),
    }
    for depth in (1..nodes).rev() {
        let mut above = node(depth, links);
        above.more.push(rec);
        rec = above;
    }
    rec
}

/// A node at a depth: a root on top, else with a name if that lies no deeper than so many links.
fn node(depth: u32, links: u32) -> Rec {
    let mut node = Rec { kind: tree::NODE, ..Rec::default() };
    if depth == 1 {
        node.child.push(Rec { kind: tree::SLASH, ..Rec::default() });
    } else if depth + 1 < links {
        node.child.push(name(b"d"));
    }
    node
}

fn name(text: &[u8]) -> Rec {
    Rec { kind: tree::NAME, text: text.to_vec(), ..Rec::default() }
}

/// A property whose deepest record lies so many links below its node: a value at 2, a cell at 3, then
/// expressions. It has a name where that is not the deepest.
fn property(links: u32) -> Rec {
    let mut property = Rec { kind: tree::PROPERTY, ..Rec::default() };
    if links > 2 {
        property.child.push(name(b"p"));
    }
    let mut value = Rec { kind: tree::CELL_LIST, ..Rec::default() };
    if links >= 3 {
        let mut cell = Rec { kind: tree::EXPRESSION, ..Rec::default() };
        let mut inner = None;
        for depth in (4..=links).rev() {
            let kind = if depth == links { tree::NUMBER } else { tree::PARENTHESIS };
            let text = if depth == links { b"7".to_vec() } else { Vec::new() };
            inner = Some(Rec { kind, text, child: inner.into_iter().collect(), ..Rec::default() });
        }
        cell.child.extend(inner);
        value.child.push(cell);
    }
    property.more.push(value);
    property
}
