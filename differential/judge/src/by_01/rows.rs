//! Rows 1 to 6, 02's 18 before them and its 14 behind them: which descriptions are refused, with which number, what is
//! returned, and by which clauses of the table.

use crate::{
    by_02::files::{self, Bad},
    records::{MOST_RECORDS, MOST_TEXT, RECORD, Records, SIGNED, UNSIGNED},
    tree::Place,
};

/// The most child, item or value links from record 0.
const MOST_LINKS: u32 = 64;

/// The links of a record: next, child, and W of kinds 1 and 2.
#[derive(Debug, Clone, Copy, PartialEq, Eq)]
pub enum Link {
    Next,
    Child,
    Items,
    Values,
}

/// The number of a level that is none.
pub const NO_LEVEL: u32 = 18;

/// The number of a list of files' starts that is bad.
pub const BAD_FILES: u32 = 14;

/// What can be wrong, as rows 1 to 6 list it; the level first, the files' starts last.
#[derive(Debug, Clone, Copy, PartialEq, Eq)]
pub enum Clause {
    Level,
    NoWords,
    WordsNotEight,
    RecordsOver,
    TextOver,
    NotAbove(Link),
    PastEnd(Link),
    LinkedAlready(Link),
    TextPastEnd,
    /// A word of record 0 that is not zero.
    Record0(usize),
    KindUnfit(Place),
    /// W outside the list of a kind.
    W(u32),
    Surrogate,
    AboveLastPoint,
    /// A child of a kind that has none.
    Child(u32),
    SpanTurned,
    NameEmpty,
    NameSlash,
    ReferenceSlash,
    /// More than 64 links, the last of them this one.
    Links(Link),
    Files(Bad),
}

/// The same with all clauses that hold of the record returned.
#[derive(Debug, Clone, PartialEq, Eq)]
pub struct Refused {
    pub number: u32,
    pub returned: u32,
    pub clauses: Vec<Clause>,
}

/// A refusal: number and what is returned.
pub type Refusal = (u32, u32);

/// The number and what is returned, if a description is refused.
pub fn refusal(records: &Records) -> Option<Refusal> {
    refused(records).map(|refused| (refused.number, refused.returned))
}

/// The refusal of a description, if there is one. Each cause is tried over all records before the
/// next; the lowest record at fault is returned.
pub fn refused(from: &Records) -> Option<Refused> {
    if ![SIGNED, UNSIGNED].contains(&from.level) {
        return Some(Refused { number: NO_LEVEL, returned: 0, clauses: vec![Clause::Level] });
    }
    let size = wrong_size(from);
    if !size.is_empty() {
        return Some(Refused { number: 1, returned: 0, clauses: size });
    }
    let records: Vec<&[u32]> = from.words.chunks(RECORD).collect();
    let lowest = |number: u32, faults: &dyn Fn(usize) -> Vec<Clause>| {
        let of = |record| Refused { number, returned: record as u32, clauses: faults(record) };
        (0..records.len()).map(of).find(|refused| !refused.clauses.is_empty())
    };
    let linked = linked_by(&records);
    let links = lowest(2, &|record| bad_links(&records, &linked, record));
    links.or_else(|| lowest(3, &|record| bad_text(records[record], from.text.len()))).or_else(|| {
        let reached = reached(&records);
        let of_reached = |record: usize, faults: &dyn Fn(&Reached) -> Vec<Clause>| {
            reached[record].as_ref().map_or(Vec::new(), faults)
        };
        let text = |words: &[u32]| &from.text[words[3] as usize..][..words[4] as usize];
        lowest(4, &|record| match record {
            0 => bad_head(records[0]),
            _ => of_reached(record, &|reached| unfit(records[record], reached.place)),
        })
        .or_else(|| {
            lowest(5, &|record| of_reached(record, &|_| bad_name(records[record], text(records[record]))))
        })
        .or_else(|| lowest(6, &|record| of_reached(record, &too_deep)))
        .or_else(|| bad_files(from))
    })
}

/// 14: "A list that is empty, has over 16 entries, doesn't begin with 0 or doesn't rise strictly is refused .. after 6."
fn bad_files(from: &Records) -> Option<Refused> {
    let clauses: Vec<Clause> = files::faults(&from.starts).into_iter().map(Clause::Files).collect();
    (!clauses.is_empty()).then_some(Refused { number: BAD_FILES, returned: 0, clauses })
}

/// Row 1: "words not 8 times 1 to 2,048, or text over 65,536 bytes".
fn wrong_size(Records { words, text, .. }: &Records) -> Vec<Clause> {
    held([
        (Clause::NoWords, words.is_empty()),
        (Clause::WordsNotEight, !words.len().is_multiple_of(RECORD)),
        (Clause::RecordsOver, words.len().is_multiple_of(RECORD) && words.len() > MOST_RECORDS * RECORD),
        (Clause::TextOver, text.len() > MOST_TEXT),
    ])
}

fn held<const N: usize>(clauses: [(Clause, bool); N]) -> Vec<Clause> {
    clauses.into_iter().filter(|(_, holds)| *holds).map(|(clause, _)| clause).collect()
}

/// The links of a record that are not zero.
pub fn links(words: &[u32]) -> Vec<(Link, usize)> {
    let second = match words[0] {
        1 => Some((Link::Items, words[5])),
        2 => Some((Link::Values, words[5])),
        _ => None,
    };
    let all = [Some((Link::Next, words[1])), Some((Link::Child, words[2])), second];
    let there = all.into_iter().flatten().filter(|(_, to)| *to != 0);
    there.map(|(link, to)| (link, to as usize)).collect()
}

/// By which record, and which of its links, each record is linked first.
fn linked_by(records: &[&[u32]]) -> Vec<Option<(usize, usize)>> {
    let mut linked = vec![None; records.len()];
    for (record, words) in records.iter().enumerate() {
        for (place, (_, to)) in links(words).into_iter().enumerate() {
            if let Some(slot @ None) = linked.get_mut(to) {
                *slot = Some((record, place));
            }
        }
    }
    linked
}

/// Row 2: "link not above its own record, past the end, or to one already linked".
fn bad_links(records: &[&[u32]], linked: &[Option<(usize, usize)>], record: usize) -> Vec<Clause> {
    let mut faults = Vec::new();
    for (place, (link, to)) in links(records[record]).into_iter().enumerate() {
        if to <= record {
            faults.push(Clause::NotAbove(link));
        } else if to >= records.len() {
            faults.push(Clause::PastEnd(link));
        } else if linked[to] != Some((record, place)) {
            faults.push(Clause::LinkedAlready(link));
        }
    }
    faults
}

/// Row 3: "text past its end".
fn bad_text(words: &[u32], length: usize) -> Vec<Clause> {
    held([(Clause::TextPastEnd, u64::from(words[3]) + u64::from(words[4]) > length as u64)])
}

/// Row 4 of record 0: it "holds only the first top item as child; any other word there not zero".
fn bad_head(words: &[u32]) -> Vec<Clause> {
    let other = (0..RECORD).filter(|word| *word != 2);
    other.filter(|word| words[*word] != 0).map(Clause::Record0).collect()
}

/// How a record is reached from record 0.
#[derive(Debug, Clone)]
pub struct Reached {
    /// None below a kind that has no children.
    pub place: Option<Place>,
    /// Child, item and value links up to it, and the last of them.
    pub links: u32,
    pub by: Link,
}

/// How each record is reached, if it is. Links go up, so each record is known before what it links to.
pub fn reached(records: &[&[u32]]) -> Vec<Option<Reached>> {
    let mut reached: Vec<Option<Reached>> = vec![None; records.len()];
    for (record, words) in records.iter().enumerate() {
        let here = reached[record].clone();
        if record != 0 && here.is_none() {
            continue;
        }
        let depth = here.as_ref().map_or(0, |here| here.links);
        for (link, to) in links(words) {
            let place = match link {
                Link::Child if record == 0 => Some(Place::TopItem),
                Link::Child => Place::of_children(words[0]),
                Link::Items | Link::Values => Place::of_more(words[0]),
                Link::Next => None,
            };
            reached[to] = match link {
                Link::Next => here.clone(),
                _ => Some(Reached { place, links: depth + 1, by: link }),
            };
        }
    }
    reached
}

/// Row 4 of a record other than 0.
fn unfit(words: &[u32], place: Option<Place>) -> Vec<Clause> {
    let (kind, child, w) = (words[0], words[2], words[5]);
    let bad_w = match kind {
        1 | 2 | 16 => false,
        3 => !(1..=6).contains(&w),
        8 => w > 1,
        18 => w > 4,
        20 => w > 19,
        _ => w != 0,
    };
    let fits = place.is_some_and(|place| place.kinds().contains(&kind));
    held([
        (Clause::KindUnfit(place.unwrap_or(Place::TopItem)), !fits),
        (Clause::W(kind), bad_w),
        (Clause::Surrogate, kind == 16 && (0xd800..=0xdfff).contains(&w)),
        (Clause::AboveLastPoint, kind == 16 && w > 0x10_ffff),
        (Clause::Child(kind), child != 0 && Place::of_children(kind).is_none()),
        (Clause::SpanTurned, words[7] < words[6]),
    ])
}

/// Row 5: "name (5) empty, or it or a name reference holding "/"".
fn bad_name(words: &[u32], text: &[u8]) -> Vec<Clause> {
    let slash = text.contains(&b'/');
    held([
        (Clause::NameEmpty, words[0] == 5 && text.is_empty()),
        (Clause::NameSlash, words[0] == 5 && slash),
        (Clause::ReferenceSlash, words[0] == 8 && words[5] == 0 && slash),
    ])
}

/// Row 6: "more than 64 child, item or value links from record 0".
fn too_deep(reached: &Reached) -> Vec<Clause> {
    held([(Clause::Links(reached.by), reached.links > MOST_LINKS)])
}
