//! Makes a description on which two sides differ smaller, as long as they differ.

use crate::tree::{Rec, count};

/// At most this many smaller descriptions are tried.
const MOST_TRIED: usize = 6000;

/// A way to make a description smaller at one record.
#[derive(Debug, Clone, Copy)]
enum Edit {
    /// The record goes, with all below it.
    Remove,
    /// Its items, or its operands, take its place.
    Lift,
    /// Its text becomes half as long.
    Shorten,
}

/// A smaller description for which `differs` still holds.
pub fn shrunk(top: Vec<Rec>, differs: &dyn Fn(&[Rec]) -> bool) -> Vec<Rec> {
    let mut top = top;
    let mut tried = 0;
    loop {
        let before = top.clone();
        for how in [Edit::Remove, Edit::Lift, Edit::Shorten] {
            let mut place = 0;
            while place < count(&top) && tried < MOST_TRIED {
                let smaller = edited(&top, &mut place.clone(), how);
                tried += 1;
                if smaller != top && differs(&smaller) {
                    top = smaller;
                } else {
                    place += 1;
                }
            }
        }
        if top == before {
            return top;
        }
    }
}

/// The chain with an edit made at the record that is `place` records further in the walk.
fn edited(chain: &[Rec], place: &mut usize, how: Edit) -> Vec<Rec> {
    let mut out = Vec::new();
    for rec in chain {
        let size = rec.count();
        if *place >= size {
            *place -= size;
            out.push(rec.clone());
        } else if *place > 0 {
            *place -= 1;
            let child = edited(&rec.child, place, how);
            let more = edited(&rec.more, place, how);
            out.push(Rec { child, more, text: rec.text.clone(), ..*rec });
        } else {
            *place = usize::MAX;
            match how {
                Edit::Remove => {}
                Edit::Lift if rec.kind == 1 && !rec.more.is_empty() => out.extend(rec.more.iter().cloned()),
                Edit::Lift if rec.kind >= 18 && !rec.child.is_empty() => {
                    out.extend(rec.child.iter().cloned())
                }
                Edit::Shorten if rec.text.len() > 1 && rec.text.is_ascii() => {
                    out.push(Rec { text: rec.text[..rec.text.len() / 2].to_vec(), ..rec.clone() });
                }
                _ => out.push(rec.clone()),
            }
        }
    }
    out
}
