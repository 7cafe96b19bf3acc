//! Row 7's own limits: 2^24 bytes made, and 65,536 records, in buffers that are larger.
//!
//! No description makes 65,536 records: 2,047 records make at most three each. So of that limit only
//! buffers above it are tried.

use crate::{
    by_01,
    by_02::files::Files,
    library::Library,
    output::{self, RECORD},
    random::Random,
    records::{self, Layout, Order, Records, SIGNED},
    room::Room,
    tree::{self, Rec},
};

/// The most bytes that may be made.
const MOST_BYTES: u64 = 1 << 24;

/// A long text; with the names it fits into the 65,536 bytes of a description.
const LONGEST: usize = 65_000;

/// Compares a side at the limits: how many calls, and the differences.
pub fn compare(side: &Library) -> (u64, Vec<String>) {
    let most = MOST_BYTES as usize;
    let exact = strings(MOST_BYTES);
    let over = strings(MOST_BYTES + 1);
    let calls = [
        ("2^24 bytes made, as many lent", &exact, most, 0),
        ("2^24 bytes made, more lent", &exact, most + 9, 0),
        ("2^24 bytes made, one less lent", &exact, most - 1, 7),
        ("one byte more made, as many lent", &over, most + 1, 7),
        ("one byte more made, more lent", &over, most + 9, 7),
        ("paths of more than 2^32 bytes made", &paths(), most + 9, 7),
        ("diagnostics of more than 2^24 bytes made", &macros(), most + 9, 7),
    ];
    let words = [40_000 * RECORD, 65_536 * RECORD, 65_537 * RECORD + 1];
    let faults = calls.iter().flat_map(|(name, records, bytes, number)| {
        words.iter().filter_map(move |words| {
            let fault = call(side, records, *words, *bytes, *number).err()?;
            Some(format!("{name}, {words} words lent: {fault}"))
        })
    });
    ((calls.len() * words.len()) as u64, faults.collect())
}

/// Lowers into buffers of a size: the log by 01's sentences, or 7 and zeros.
fn call(side: &Library, records: &Records, words: usize, bytes: usize, number: u32) -> Result<(), String> {
    let mut room = Room::new(words, bytes);
    let answer = room.lower(side.lower, records)?;
    if answer != (number, 0) {
        return Err(format!("{answer:?}, due {number}"));
    }
    if number == 7 {
        return if room.is_zero() { Ok(()) } else { Err("not all is zero".to_owned()) };
    }
    let due = by_01::lower::lower(&records::read(records), SIGNED);
    let output = output::read(room.words(), room.bytes())?;
    if (u64::from(output.records), u64::from(output.bytes)) != (due.records, due.bytes) {
        return Err("other counts".to_owned());
    }
    let same = output.answer == due.answer && output.files == Files::of(&due.answer, &records.starts);
    if same { Ok(()) } else { Err("the log differs".to_owned()) }
}

/// A root with a property whose strings, all from the same text, make so many bytes with the paths; the
/// last of them is the last record made.
fn strings(made: u64) -> Records {
    let property = |strings: Vec<Rec>| {
        let name = Rec { kind: tree::NAME, text: b"p".to_vec(), ..Rec::default() };
        let version = Rec { kind: tree::DIRECTIVE, w: 1, ..Rec::default() };
        let property = Rec { kind: tree::PROPERTY, child: vec![name], more: strings, ..Rec::default() };
        [version, root(vec![property])]
    };
    let without = by_01::lower::lower(&property(Vec::new()), SIGNED).bytes;
    let string = |length: usize| Rec { kind: tree::STRING, text: vec![b's'; length], ..Rec::default() };
    let mut left = (made - without) as usize;
    let mut strings = Vec::new();
    while left > 0 {
        strings.push(string(left.min(LONGEST)));
        left = left.saturating_sub(LONGEST);
    }
    let top = property(strings);
    assert_eq!(by_01::lower::lower(&top, SIGNED).bytes, made, "as many bytes as wanted");
    written(&top)
}

/// Sixty nodes in one another with long names, and in the last 1,900 version directives, whose paths alone
/// take 7 * 10^9 bytes.
fn paths() -> Records {
    let name = Rec { kind: tree::NAME, text: vec![b'n'; LONGEST], ..Rec::default() };
    let version = Rec { kind: tree::DIRECTIVE, w: 1, ..Rec::default() };
    let mut items = vec![version; 1900];
    for _ in 0..60 {
        items = vec![Rec { kind: tree::NODE, child: vec![name.clone()], more: items, ..Rec::default() }];
    }
    written(&[root(items)])
}

/// Macros in the place of values, each reported with its long text.
fn macros() -> Records {
    let invocation = Rec { kind: tree::MACRO, text: vec![b'M'; LONGEST], ..Rec::default() };
    let property = Rec { kind: tree::PROPERTY, more: vec![invocation; 300], ..Rec::default() };
    written(&[root(vec![property])])
}

fn root(items: Vec<Rec>) -> Rec {
    let slash = Rec { kind: tree::SLASH, ..Rec::default() };
    Rec { kind: tree::NODE, child: vec![slash], more: items, ..Rec::default() }
}

/// A description in which equal texts share their bytes.
fn written(top: &[Rec]) -> Records {
    let layout = Layout { order: Order::Down, shared: true, noise: false };
    records::write(top, SIGNED, layout, &mut Random::new(0))
}
