//! Box numbers as packed decimal (02, request 1), against 02's sentences.

pub mod faults;
pub mod known;
mod made;
mod wanted;

use crate::{by_02::boxes, coverage::Coverage, guarded::Guarded, worked::hex};
pub use wanted::wanted;

/// The functions of a side.
#[derive(Clone, Copy)]
pub struct Boxes {
    pub read: Read,
    pub write: Write,
}

/// Reads a box number: number and value.
pub type Read = fn(&[u8]) -> (u32, u64);

/// Writes a number into all of a slice: number and what is returned.
pub type Write = fn(u64, &mut [u8]) -> (u32, u32);

/// Number and what is returned of a writing, and the bytes behind it.
type Written = ((u32, u32), Vec<u8>);

/// A text to read, or a number to write into so many bytes.
pub enum Case {
    Read(Vec<u8>),
    Write(u64, usize),
}

/// Bytes on each side of a slice that is lent.
const AROUND: usize = 8;

/// What lies around it and, before a writing, in it, in turn: an answer that depends on it shows, and so does a byte that is not
/// set.
const OTHERS: [u8; 2] = [0x12, 0xff];

/// The most bytes of a text that are shown.
const SHOWN: usize = 40;

/// What a comparison counted.
#[derive(Debug, Clone, Copy, Default)]
pub struct Counts {
    known: u64,
    read: u64,
    written: u64,
    different: u64,
}

impl Counts {
    pub fn line(&self) -> String {
        let Self { known, read, written, different } = self;
        format!(
            "{known} known box numbers, {read} texts read, {written} numbers written, {different} different"
        )
    }

    pub fn total(&self) -> crate::counts::Counts {
        crate::counts::Counts::of(self.known + self.read + self.written, self.different)
    }

    /// Counts a difference, and prints it if it is one of the first.
    fn differs(&mut self, fault: &str) {
        self.different += 1;
        if self.different <= 3 {
            println!("box numbers: case {}: {fault}", self.known + self.read + self.written);
        }
    }
}

/// Compares a side on the cases with known answers, and on at most `most` texts and as many numbers.
pub fn compare(side: &Boxes, most: u64, coverage: &mut Coverage) -> Counts {
    let (mut counts, mut guarded) = (Counts::default(), Guarded::new());
    for (question, answer) in known::cases() {
        counts.known += 1;
        let compared = known::compare(question, answer, |case| compare_case(side, case, Some(&mut guarded)));
        compared.unwrap_or_else(|fault| counts.differs(&fault));
    }
    let most = most as usize;
    for case in made::texts().into_iter().take(most).chain(made::numbers().into_iter().take(most)) {
        match case {
            Case::Read(_) => counts.read += 1,
            Case::Write(..) => counts.written += 1,
        }
        wanted::note(&case, coverage);
        compare_case(side, &case, Some(&mut guarded)).unwrap_or_else(|fault| counts.differs(&fault));
    }
    counts
}

/// Compares a side on a case, lent between other bytes and, where there is such, against memory that can't be read.
fn compare_case(side: &Boxes, case: &Case, guarded: Option<&mut Guarded>) -> Result<(), String> {
    match case {
        Case::Read(text) => compare_read(side, text, guarded),
        Case::Write(value, length) => compare_written(side, *value, *length, guarded),
    }
}

/// What is read of a text, wherever it lies; and what is read, written at the text's length.
fn compare_read(side: &Boxes, text: &[u8], guarded: Option<&mut Guarded>) -> Result<(), String> {
    let due = boxes::read(text).map_or_else(|number| (number, 0), |value| (0, value));
    let asked = format!("reading {}", shown(text));
    let mut given = Vec::new();
    for other in OTHERS {
        given.push(read_between(side.read, text, other).ok_or_else(|| format!("{asked} writes"))?);
    }
    if let Some(guarded) = guarded {
        given.extend(guarded.lent(text, |lent| (side.read)(lent)));
    }
    if let Some(given) = given.iter().find(|given| **given != due) {
        return Err(format!("{asked}: 02 {due:?}, given {given:?}"));
    }
    let (number, value) = due;
    if number != 0 {
        return Ok(());
    }
    let again = write_between(side.write, value, text.len(), OTHERS[1]);
    same(&format!("{asked}, then writing"), &((0, 0), between(text, OTHERS[1])), &[again])
}

/// What writing a number into so many bytes gives and leaves, wherever they lie and whatever they held; and what is read of them.
fn compare_written(
    side: &Boxes,
    value: u64,
    length: usize,
    mut guarded: Option<&mut Guarded>,
) -> Result<(), String> {
    let asked = format!("writing {value} into {length} bytes");
    let due = boxes::written(value, length);
    for other in OTHERS {
        let held = vec![other; length];
        let number = due.as_ref().err().copied().unwrap_or(0);
        let slice = due.as_ref().unwrap_or(&held);
        let given = write_between(side.write, value, length, other);
        same(&asked, &((number, 0), between(slice, other)), &[given])?;
        if let Some(guarded) = guarded.as_mut() {
            let given = guarded.lent(&held, |lent| ((side.write)(value, lent), lent.to_vec()));
            same(&asked, &((number, 0), slice.clone()), &given)?;
        }
    }
    match due.map(|bytes| (side.read)(&bytes)) {
        Ok(again) if again != (0, value) => Err(format!("{asked}, then reading: given {again:?}")),
        _ => Ok(()),
    }
}

/// Fails if not all that is given is what is due.
fn same(asked: &str, due: &Written, given: &[Written]) -> Result<(), String> {
    let told = |(answer, bytes): &Written| format!("{answer:?} {}", shown(bytes));
    match given.iter().find(|given| *given != due) {
        None => Ok(()),
        Some(given) => Err(format!("{asked}: 02 {}, given {}", told(due), told(given))),
    }
}

/// A slice with other bytes around it.
fn between(slice: &[u8], other: u8) -> Vec<u8> {
    [&[other; AROUND], slice, &[other; AROUND]].concat()
}

/// What is read of a text between other bytes; none if not all of them stay.
fn read_between(read: Read, text: &[u8], other: u8) -> Option<(u32, u64)> {
    let memory = between(text, other);
    let answer = read(&memory[AROUND..][..text.len()]);
    (memory == between(text, other)).then_some(answer)
}

/// What a writing into a slice of other bytes between such bytes gives, and all of them behind it.
fn write_between(write: Write, value: u64, length: usize, other: u8) -> Written {
    let mut memory = vec![other; AROUND + length + AROUND];
    let answer = write(value, &mut memory[AROUND..][..length]);
    (answer, memory)
}

/// The first bytes of a text.
fn shown(text: &[u8]) -> String {
    match text.split_at_checked(SHOWN) {
        Some((first, [_, ..])) => format!("[{}..] of {} bytes", hex(first), text.len()),
        _ => format!("[{}]", hex(text)),
    }
}
