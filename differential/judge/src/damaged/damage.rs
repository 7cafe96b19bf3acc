//! Damage to a description, for every clause of rows 1 to 6, and changes that are no fault.

use super::{deep::deep, hand::Hand};
use crate::records::{MOST_RECORDS, MOST_TEXT, RECORD};

/// A change: what it is called, the row that refuses it if it comes alone (0 if none does), and how it
/// is done; false if the description has nothing to do it to.
pub struct Damage {
    pub name: &'static str,
    pub row: u32,
    pub make: fn(&mut Hand) -> bool,
}

const fn row(row: u32, name: &'static str, make: fn(&mut Hand) -> bool) -> Damage {
    Damage { name, row, make }
}

/// Every clause of rows 1 to 6, then what is no fault.
pub static DAMAGES: [Damage; 46] = [
    row(1, "no words", |hand| {
        hand.records.words.clear();
        true
    }),
    row(1, "words that are no multiple of 8", |hand| {
        let (count, odd) = (hand.count(), 1 + hand.random.below(RECORD - 1));
        let whole = hand.random.pick(&[0, count.saturating_sub(1), count, MOST_RECORDS]);
        hand.records.words.resize(whole * RECORD + odd, 0);
        true
    }),
    row(1, "2,049 records or more", |hand| resize(hand, MOST_RECORDS + 1)),
    row(1, "65,537 bytes of text or more", |hand| resize_text(hand, MOST_TEXT + 1)),
    row(2, "a link to its own record", |hand| {
        hand.link().is_some_and(|(number, word)| number != 0 && hand.set(number, word, number as u32))
    }),
    row(2, "a link to a lower record", |hand| {
        let Some((number, word)) = hand.link().filter(|(number, _)| *number > 1) else { return false };
        let lower = 1 + hand.random.below(number - 1) as u32;
        hand.set(number, word, lower)
    }),
    row(2, "a link past the end", |hand| {
        let count = hand.count() as u32;
        let past = hand.random.pick(&[count, count, count + 1, 2048, 65_536, 1 << 29, u32::MAX]);
        hand.link().is_some_and(|(number, word)| past >= count && hand.set(number, word, past))
    }),
    row(2, "two records that link to one", |hand| {
        let Some((linking, linked)) = hand.linked().filter(|(linking, linked)| linking + 1 < *linked) else {
            return false;
        };
        let between = hand.some(|known| linking < known.number && known.number < linked);
        let word = hand.random.pick(&[1, 2, 5]);
        between.is_some_and(|between| {
            (word != 5 || between.kind <= 2) && hand.set(between.number, word, linked as u32)
        })
    }),
    row(2, "two links of a record to one", |hand| {
        let Some(known) = hand.some(|known| known.kind <= 2) else { return false };
        let to = hand.add(4) as u32;
        let [one, other] = hand.random.pick(&[[1, 2], [1, 5], [2, 5]]);
        hand.set(known.number, one, to) && hand.set(known.number, other, to)
    }),
    row(3, "a text past the end", |hand| {
        let past = hand.records.text.len() as u32 + 1 + hand.random.below(3) as u32;
        hand.any().is_some_and(|number| hand.set(number, 4, past))
    }),
    row(3, "a text whose end is above 2^32", |hand| {
        let start = u32::MAX - hand.random.below(2) as u32;
        hand.any().is_some_and(|number| hand.set(number, 3, start) && hand.set(number, 4, 2))
    }),
    row(3, "an empty text past the end", |hand| {
        let past = hand.records.text.len() as u32 + 1;
        hand.any().is_some_and(|number| hand.set(number, 3, past) && hand.set(number, 4, 0))
    }),
    row(3, "a text of record 0 past the end", |hand| {
        let past = hand.records.text.len() as u32 + 1;
        let word = hand.random.pick(&[3, 4]);
        hand.set(0, word, past)
    }),
    row(3, "the text cut short", |hand| {
        let length = hand.records.text.len();
        let left = hand.random.below(length.max(1));
        hand.records.text.truncate(left);
        length > 0
    }),
    row(4, "a word of record 0", |hand| {
        let word = hand.random.pick(&[0, 3, 4, 5, 6, 7]);
        let most = if word == 3 || word == 4 { hand.records.text.len() } else { 9 };
        let value = 1 + hand.random.below(most.max(1)) as u32;
        most > 0 && hand.set(0, word, value)
    }),
    row(4, "a next of record 0", |hand| {
        let loose = hand.loose();
        loose.is_some_and(|loose| hand.set(0, 1, loose as u32))
    }),
    row(4, "kind 0", |hand| hand.set_some(|_| true, 0, 0)),
    row(4, "a kind above 20", |hand| {
        let kind = hand.random.pick(&[21, 22, 255, 256 + 1, 65_536 + 2, u32::MAX]);
        hand.set_some(|_| true, 0, kind)
    }),
    row(4, "a kind of another place", |hand| {
        let kind = 1 + hand.random.below(20) as u32;
        hand.set_some(|known| !known.place.kinds().contains(&kind), 0, kind)
    }),
    row(4, "W of a directive outside its list", |hand| set_w(hand, 3, &[0, 7, 8, u32::MAX])),
    row(4, "W of a reference outside its list", |hand| set_w(hand, 8, &[2, 3, u32::MAX])),
    row(4, "a surrogate", |hand| set_w(hand, 16, &[0xd800, 0xdabc, 0xdfff])),
    row(4, "a code point above 0x10FFFF", |hand| set_w(hand, 16, &[0x11_0000, u32::MAX])),
    row(4, "W of a prefix outside its list", |hand| set_w(hand, 18, &[5, 6, u32::MAX])),
    row(4, "W of an infix outside its list", |hand| set_w(hand, 20, &[20, 21, u32::MAX])),
    row(4, "W of a kind that has none", |hand| {
        let w = hand.random.pick(&[1, 2, 2048, u32::MAX]);
        hand.set_some(|known| !matches!(known.kind, 1..=3 | 8 | 16 | 18 | 20), 5, w)
    }),
    row(4, "a child of a kind that has none", |hand| {
        let Some(known) = hand.some(|known| matches!(known.kind, 4 | 5 | 9..=12 | 14..=16)) else {
            return false;
        };
        let kind = hand.random.pick(&[1, 5, 9, 15]);
        let child = hand.add(kind) as u32;
        hand.set(known.number, 2, child)
    }),
    row(4, "a span that ends before it starts", |hand| {
        let end = hand.random.pick(&[0, 1, 1 << 31, u32::MAX - 1]);
        let Some(known) = hand.some(|_| true) else { return false };
        hand.set(known.number, 6, end + 1) && hand.set(known.number, 7, end)
    }),
    row(5, "an empty name", |hand| hand.set_some(|known| known.kind == 5, 4, 0)),
    row(5, "a name with a slash", |hand| {
        let text = hand.random.pick::<&[u8]>(&[b"/", b"a/b", b"/a", b"a/", b"\xff/"]);
        hand.some(|known| known.kind == 5).is_some_and(|known| hand.give_text(known.number, text))
    }),
    row(5, "a name reference with a slash", |hand| {
        let text = hand.random.pick::<&[u8]>(&[b"/", b"l/a", b"/l"]);
        let named = hand.some(|known| known.kind == 8 && known.w == 0);
        named.is_some_and(|known| hand.give_text(known.number, text))
    }),
    row(6, "65 links or more", |hand| {
        let links = 65 + hand.random.weighted(&[6, 1, 1]) as u32;
        let rec = deep(links, &mut hand.random);
        hand.append_top(&[rec])
    }),
    row(0, "64 links", |hand| {
        let rec = deep(64, &mut hand.random);
        hand.append_top(&[rec])
    }),
    row(0, "2,048 records", |hand| resize(hand, MOST_RECORDS)),
    row(0, "65,536 bytes of text", |hand| resize_text(hand, MOST_TEXT)),
    row(0, "an empty text at the end", |hand| {
        let end = hand.records.text.len() as u32;
        let without = hand.some(|known| matches!(known.kind, 1..=4 | 6 | 7 | 10 | 11 | 16..=20));
        without.is_some_and(|known| hand.set(known.number, 3, end) && hand.set(known.number, 4, 0))
    }),
    row(0, "a text up to the end", |hand| {
        hand.some(|known| known.kind == 12).is_some_and(|known| hand.give_text(known.number, b"\0/\xff"))
    }),
    row(0, "bytes that are no UTF-8", |hand| {
        let text = hand.random.pick::<&[u8]>(&[b"\xff", b"a\x80", b"\xed\xa0\x80", b"\0"]);
        let known = hand.some(|known| matches!(known.kind, 5 | 8 | 9 | 12 | 13 | 14 | 15));
        known.is_some_and(|known| hand.give_text(known.number, text))
    }),
    row(0, "a span of the largest numbers", |hand| {
        let start = hand.random.pick(&[0, u32::MAX - 1, u32::MAX]);
        let Some(known) = hand.some(|_| true) else { return false };
        hand.set(known.number, 6, start) && hand.set(known.number, 7, u32::MAX)
    }),
    row(0, "an empty name reference", |hand| hand.set_some(|known| known.kind == 8 && known.w == 0, 4, 0)),
    row(0, "a code point beside the surrogates, or the last", |hand| {
        set_w(hand, 16, &[0, 0xd7ff, 0xe000, 0x10_ffff])
    }),
    row(0, "W at the end of a directive's list", |hand| set_w(hand, 3, &[1, 6])),
    row(0, "W at the end of a prefix's list", |hand| set_w(hand, 18, &[0, 4])),
    row(0, "W at the end of an infix's list", |hand| set_w(hand, 20, &[0, 19])),
    row(0, "a loose record with a kind, a W and a span that fit nowhere", |hand| {
        let loose = hand.loose();
        loose.is_some_and(|loose| {
            hand.set(loose, 0, 21) && hand.set(loose, 5, 99) && hand.set(loose, 6, 9) && hand.set(loose, 7, 8)
        })
    }),
    row(0, "a loose record that links to a loose one", |hand| {
        let Some(loose) = hand.loose() else { return false };
        let to = hand.add(5) as u32;
        hand.set(loose, 0, 1) && hand.set(loose, 1, 0) && hand.set(loose, 2, 0) && hand.set(loose, 5, to)
    }),
];

/// Makes it so many records, the new ones zeros, or a few more.
fn resize(hand: &mut Hand, records: usize) -> bool {
    let more = if records > MOST_RECORDS { hand.random.pick(&[0, 0, 1, 2048]) } else { 0 };
    let fits = hand.count() <= records;
    hand.records.words.resize((records + more) * RECORD, 0);
    fits
}

fn resize_text(hand: &mut Hand, bytes: usize) -> bool {
    let more = if bytes > MOST_TEXT { hand.random.pick(&[0, 0, 1, 65_536]) } else { 0 };
    let fits = hand.records.text.len() <= bytes;
    hand.records.text.resize(bytes + more, b'/');
    fits
}

/// Sets W of some record of a kind.
fn set_w(hand: &mut Hand, kind: u32, values: &[u32]) -> bool {
    let w = hand.random.pick(values);
    hand.set_some(|known| known.kind == kind, 5, w)
}
