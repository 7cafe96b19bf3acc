//! Texts, and places from which the next "/" is looked for.

use crate::{inputs::sequences, random::Random};

/// A text, and where to start.
pub type Case = (Vec<u8>, usize);

/// What stands next to a slash: a letter, the bytes below and above a slash's, a slash's with the top bit, the least and the
/// largest byte, and another slash.
pub const NEIGHBOURS: [u8; 7] = [b'a', 0x2e, 0x30, 0xaf, 0x00, 0xff, b'/'];

/// Places behind the end of every text: the largest, and those from which a word would pass it; and those that are 0 and 1 in
/// 32 bits.
pub const FAR: [usize; 5] = [usize::MAX, usize::MAX - 7, usize::MAX - 8, 1 << 32, (1 << 32) + 1];

/// Places that a slash has, and how many bytes are behind it.
const OFFSETS: usize = 24;
const BEHIND: usize = 8;

/// The longest text of any bytes.
const LONGEST: usize = 80;

/// All of them, in any order, so that each sort comes up early.
pub fn cases() -> Vec<Case> {
    let random = &mut Random::new(8);
    let mut cases = lanes();
    let any: Vec<Case> = (0..cases.len()).map(|_| any(random)).collect();
    cases.extend(any);
    cases.extend(short());
    random.shuffle(&mut cases);
    cases
}

/// All texts of up to three bytes over a few, from each place and from far behind.
fn short() -> impl Iterator<Item = Case> {
    sequences(&NEIGHBOURS, 3).into_iter().flat_map(|text| {
        let places = (0..text.len() + 2).chain(FAR);
        places.map(|from| (text.clone(), from)).collect::<Vec<_>>()
    })
}

/// Letters with one slash at each place, each neighbour before it and behind it, from each place on.
fn lanes() -> Vec<Case> {
    let mut cases = Vec::new();
    for (place, behind) in (0..OFFSETS).flat_map(|place| (0..=BEHIND).map(move |behind| (place, behind))) {
        for neighbours in NEIGHBOURS.iter().flat_map(|before| NEIGHBOURS.map(|behind| [*before, behind])) {
            let text = with_slash(place, behind, neighbours);
            cases.extend((0..text.len() + 2).map(|from| (text.clone(), from)));
        }
    }
    cases
}

fn with_slash(place: usize, behind: usize, neighbours: [u8; 2]) -> Vec<u8> {
    let mut text = vec![b'a'; place + 1 + behind];
    text[place] = b'/';
    if place > 0 {
        text[place - 1] = neighbours[0];
    }
    if behind > 0 {
        text[place + 1] = neighbours[1];
    }
    text
}

/// Any bytes, slashes and their neighbours more often, from a place in the text, at its end or behind it.
fn any(random: &mut Random) -> Case {
    let slashes = random.pick(&[1, 2, 8, 40, 400]);
    let length = random.below(LONGEST + 1);
    let byte = |_| match random.weighted(&[3, 2, 1]) {
        _ if random.once_in(slashes) => b'/',
        0 => random.pick(&NEIGHBOURS[..6]),
        1 => b'a' + random.below(26) as u8,
        _ => random.below(256) as u8,
    };
    let text = (0..length).map(byte).collect();
    let from = match random.weighted(&[12, 2, 1]) {
        0 => random.below(length + 1),
        1 => length + random.below(10),
        _ => random.pick(&FAR),
    };
    (text, from)
}
