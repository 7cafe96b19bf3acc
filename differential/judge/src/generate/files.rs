//! Starts of files for a description (02, request 3): at the starts of spans, beside them and behind them all.

use std::collections::BTreeSet;

use crate::{
    by_02::files::MOST_FILES,
    random::Random,
    records::ONE_FILE,
    tree::{self, Place, Rec, Span, walk},
};

/// Apart from the numbers of the description's own seed.
const OWN: u64 = 0xf11e;

/// Places tried for each start before any number is taken.
const TRIES: usize = 6;

/// The starts for the description of a seed: often one file, else up to 16.
pub fn starts(seed: u64, top: &[Rec]) -> Vec<u32> {
    let random = &mut Random::new(seed ^ OWN << 32);
    if random.once_in(4) {
        return ONE_FILE.to_vec();
    }
    let wanted = if random.once_in(4) { MOST_FILES } else { 1 + random.below(MOST_FILES) };
    let spans = Spans::of(top);
    let mut starts = BTreeSet::from(ONE_FILE);
    let mut tries = TRIES * wanted;
    while starts.len() < wanted {
        let start = if tries > 0 { spans.start(random) } else { Some(random.next() as u32) };
        starts.extend(start);
        tries = tries.saturating_sub(1);
    }
    starts.into_iter().collect()
}

/// The spans of a description: of items, names, labels and references, and of all records.
struct Spans {
    named: Vec<Span>,
    all: Vec<Span>,
}

impl Spans {
    fn of(top: &[Rec]) -> Self {
        let mut spans = Self { named: Vec::new(), all: Vec::new() };
        walk(top, Place::TopItem, 1, &mut |rec, _, _| {
            if rec.kind <= tree::SLASH {
                spans.named.push(rec.span);
            }
            spans.all.push(rec.span);
        });
        spans
    }

    /// A start at a span, beside one, behind all or near the largest number.
    fn start(&self, random: &mut Random) -> Option<u32> {
        let of = if random.once_in(6) { &self.all } else { &self.named };
        if of.is_empty() {
            return Some(random.below(100) as u32);
        }
        let (at, end) = random.pick(of);
        match random.weighted(&[6, 4, 4, 1, 1, 1]) {
            0 => Some(at),
            1 => at.checked_sub(1),
            2 => at.checked_add(1),
            3 => Some(end),
            4 => self.all.iter().map(|span| span.0).max()?.checked_add(1 + random.below(9) as u32),
            _ => Some(u32::MAX - random.weighted(&[4, 2, 1]) as u32),
        }
    }
}
