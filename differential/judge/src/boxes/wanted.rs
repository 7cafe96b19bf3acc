//! What is to come up of box numbers.

use super::{
    Case,
    made::{OUTSIDE, POWERS},
};
use crate::{
    by_02::boxes::{self, BAD_DIGIT, BAD_LENGTH, LENGTHS, TOO_LARGE},
    coverage::Coverage,
};

/// The most digits of a number.
const MOST_DIGITS: usize = 20;

const SEVERAL: &str = "several digits above 9";

/// All of it.
pub fn wanted() -> Coverage {
    let answers = LENGTHS.flat_map(|length| {
        let read = [0, BAD_DIGIT].map(|number| reading(length, number));
        read.into_iter().chain([0, TOO_LARGE].map(|number| writing(length, number)))
    });
    let outside =
        OUTSIDE.iter().flat_map(|length| [reading(*length, BAD_LENGTH), writing(*length, BAD_LENGTH)]);
    let digits =
        OUTSIDE[1..].iter().flat_map(|length| ["good", "bad"].map(|sort| with_digits(*length, sort)));
    let places = LENGTHS.flat_map(|length| (0..2 * length).map(move |place| alone(place, length)));
    let values = (0..16).flat_map(|value| ["high", "low"].map(|which| digit(which, value)));
    let ends = LENGTHS.flat_map(|length| ["least", "largest"].map(|end| end_read(end, length)));
    let limits = LENGTHS.flat_map(|length| (-1..=1).map(move |off| limit(off, length)));
    let zeros = LENGTHS.flat_map(|length| (0..=length).map(move |zeros| leading(zeros, length)));
    let sizes = (1..=MOST_DIGITS).map(size);
    let too_large = [0, POWERS as usize].map(also_too_large);
    let all = answers.chain(outside).chain(digits).chain(places).chain(values).chain(ends);
    Coverage::wanting(
        all.chain(limits).chain(zeros).chain(sizes).chain(too_large).chain([SEVERAL.to_owned()]),
    )
}

fn answered(number: u32, success: &str) -> String {
    if number == 0 { success.to_owned() } else { number.to_string() }
}

fn reading(length: usize, number: u32) -> String {
    format!("a text of {length} bytes: {}", answered(number, "read"))
}

fn writing(length: usize, number: u32) -> String {
    format!("a number into {length} bytes: {}", answered(number, "written"))
}

fn with_digits(length: usize, sort: &str) -> String {
    format!("12 for {length} bytes with {sort} digits")
}

fn alone(place: usize, length: usize) -> String {
    format!("of the digits of {length} bytes number {place} alone above 9")
}

fn digit(which: &str, value: u8) -> String {
    format!("a {which} digit of {value}")
}

fn end_read(end: &str, length: usize) -> String {
    format!("the {end} number of {length} bytes read")
}

/// The first number that so many bytes do not hold, and those beside it.
fn limit(off: i64, length: usize) -> String {
    match off {
        0 => format!("100^{length} into {length} bytes"),
        _ => format!("100^{length} {off:+} into {length} bytes"),
    }
}

fn leading(zeros: usize, length: usize) -> String {
    format!("{zeros} bytes of leading zeros in {length} bytes")
}

fn size(digits: usize) -> String {
    format!("a number of {digits} digits")
}

fn also_too_large(length: usize) -> String {
    format!("12 for {length} bytes where 13 would hold")
}

/// Notes what a case has of it.
pub fn note(case: &Case, coverage: &mut Coverage) {
    match case {
        Case::Read(text) => note_read(text, coverage),
        Case::Write(value, length) => note_written(*value, *length, coverage),
    }
}

fn note_read(text: &[u8], coverage: &mut Coverage) {
    let (length, read) = (text.len(), boxes::read(text));
    coverage.add(reading(length, read.err().unwrap_or(0)), 1);
    let digits: Vec<u8> = text.iter().flat_map(|byte| [byte >> 4, byte & 0xf]).collect();
    let above: Vec<usize> = (0..digits.len()).filter(|place| digits[*place] > 9).collect();
    if read == Err(BAD_LENGTH) {
        coverage.add_if(with_digits(length, if above.is_empty() { "good" } else { "bad" }), length > 0);
        return;
    }
    for (place, value) in digits.iter().enumerate() {
        coverage.add(digit(["high", "low"][place % 2], *value), 1);
    }
    match above[..] {
        [] => {}
        [place] => coverage.add(alone(place, length), 1),
        _ => coverage.add(SEVERAL.to_owned(), 1),
    }
    coverage.add_if(end_read("least", length), read == Ok(0));
    coverage.add_if(end_read("largest", length), text.iter().all(|byte| *byte == 0x99));
}

fn note_written(value: u64, length: usize, coverage: &mut Coverage) {
    let written = boxes::written(value, length);
    coverage.add(writing(length, written.as_ref().err().copied().unwrap_or(0)), 1);
    coverage.add(size(value.to_string().len()), 1);
    let power = u32::try_from(length).ok().and_then(|length| 100u64.checked_pow(length));
    if written == Err(BAD_LENGTH) {
        coverage.add_if(also_too_large(length), power.is_some_and(|power| value >= power));
        return;
    }
    let off = power.map(|power| i128::from(value) - i128::from(power));
    if let Some(off @ -1..=1) = off {
        coverage.add(limit(off as i64, length), 1);
    }
    if let Ok(bytes) = written {
        coverage.add(leading(bytes.iter().take_while(|byte| **byte == 0).count(), length), 1);
    }
}
