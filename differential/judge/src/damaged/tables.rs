//! Row 4 gone through: each kind in each place, with each W that matters, with and without a child.

use super::{Counts, compare_records};
use crate::{
    coverage::Coverage,
    library::Library,
    random::Random,
    records::{RECORD, Records, SIGNED, UNSIGNED},
    tree::Place,
};

/// The ends of the lists, of the surrogates and of the code points, with what lies beside them.
const WS: [u32; 21] = [
    0,
    1,
    2,
    3,
    4,
    5,
    6,
    7,
    8,
    18,
    19,
    20,
    21,
    0xd7ff,
    0xd800,
    0xdfff,
    0xe000,
    0x10_ffff,
    0x11_0000,
    1 << 31,
    u32::MAX,
];

/// The kinds of a child.
const CHILDREN: [Option<u32>; 4] = [None, Some(5), Some(9), Some(15)];

/// The span of each record, and two files of which it starts in the second.
const SPAN: [u32; 2] = [3, 4];
const STARTS: [u32; 2] = [0, 3];

/// Compares a side with 01's table on all of them at both levels; the differences.
pub fn compare(side: &Library, counts: &mut Counts) -> Vec<String> {
    let random = &mut Random::new(0);
    let mut faults = Vec::new();
    for place in Place::ALL {
        for kind in 0..=22 {
            for w in WS {
                for (child, level) in
                    CHILDREN.into_iter().flat_map(|child| [(child, SIGNED), (child, UNSIGNED)])
                {
                    let records = Records { level, ..description(place, kind, w, child) };
                    let result = compare_records(side, &records, random, counts, &mut Coverage::empty());
                    let what =
                        || format!("kind {kind} as {place:?} with W {w}, child {child:?}, level {level}");
                    faults.extend(result.err().map(|fault| format!("{}: {fault}", what())));
                }
            }
        }
    }
    faults
}

/// A description that has such a record in a place. W of kinds 1 and 2 is a link: there it leads to a
/// record of the kind W.
fn description(place: Place, kind: u32, w: u32, child: Option<u32>) -> Records {
    let above: &[(u32, usize)] = match place {
        Place::TopItem => &[],
        Place::Item => &[(1, 5)],
        Place::NodePart => &[(1, 2)],
        Place::PropertyPart => &[(2, 2)],
        Place::DirectivePart => &[(3, 2)],
        Place::UnitAddressPart => &[(1, 2), (6, 2)],
        Place::LabelPart => &[(1, 2), (7, 2)],
        Place::ReferencePart => &[(1, 2), (8, 2)],
        Place::Value => &[(2, 5)],
        Place::Cell => &[(2, 5), (13, 2)],
        Place::Expression => &[(2, 5), (13, 2), (17, 2)],
    };
    let mut writer = Writer { words: vec![0; RECORD], link: 2 };
    for (kind, link) in above {
        let number = writer.add(*kind, if *kind == 3 { 6 } else { 0 });
        writer.link = number * RECORD + link;
    }
    let links = matches!(kind, 1 | 2);
    let number = writer.add(kind, if links { 0 } else { w });
    if let Some(child) = child {
        writer.link = number * RECORD + 2;
        writer.add(child, 0);
    }
    if links && w != 0 {
        writer.link = number * RECORD + 5;
        writer.add(w, 0);
    }
    Records { words: writer.words, text: b"7".to_vec(), level: SIGNED, starts: STARTS.to_vec() }
}

struct Writer {
    words: Vec<u32>,
    /// The word that links to the next record.
    link: usize,
}

impl Writer {
    /// Adds a record with the text "7"; its number.
    fn add(&mut self, kind: u32, w: u32) -> usize {
        let number = self.words.len() / RECORD;
        self.words[self.link] = number as u32;
        self.words.extend([kind, 0, 0, 0, 1, w, SPAN[0], SPAN[1]]);
        number
    }
}
