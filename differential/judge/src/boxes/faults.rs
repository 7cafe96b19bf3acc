//! Faults planted into our answers: the comparison must find each.

use std::slice;

use super::{Boxes, Case, Read, Write, compare_case, made};
use crate::{by_02::boxes::LENGTHS, ours};

/// Texts, and numbers, among which a fault must be found.
const CASES: usize = 4_000;

/// One of our functions with a fault.
enum Fault {
    Reading(Read),
    Writing(Write),
}

use Fault::{Reading, Writing};

/// Where each planted fault is found first, if it is. Our library must be there.
pub fn found() -> Vec<(&'static str, Option<String>)> {
    let (texts, numbers) = (made::texts(), made::numbers());
    let cases: Vec<&Case> = texts[..CASES].iter().chain(&numbers[..CASES]).collect();
    FAULTS.iter().map(|(name, fault)| (*name, first_difference(fault, &cases))).collect()
}

/// No memory is guarded: a fault that is outside of a slice is to be found by the bytes around it.
fn first_difference(fault: &Fault, cases: &[&Case]) -> Option<String> {
    let side = match fault {
        Reading(read) => Boxes { read: *read, ..ours() },
        Writing(write) => Boxes { write: *write, ..ours() },
    };
    cases.iter().enumerate().find_map(|(number, case)| {
        let difference = compare_case(&side, case, None).err()?;
        Some(format!("case {}, {difference}", number + 1))
    })
}

/// Our functions; that they are there was looked at before.
fn ours() -> Boxes {
    ours::boxes().expect("our library")
}

fn read(text: &[u8]) -> (u32, u64) {
    (ours().read)(text)
}

fn write(value: u64, slice: &mut [u8]) -> (u32, u32) {
    (ours().write)(value, slice)
}

#[rustfmt::skip]
static FAULTS: [(&str, Fault); 28] = [
    ("boxes: the low digit of a byte is read first", Reading(|text| read(&turned(text)))),
    ("boxes: the last byte is read first", Reading(|text| read(&text.iter().rev().copied().collect::<Vec<_>>()))),
    ("boxes: a high digit of 10 is let through", Reading(|text| let_through(text, |place, digit| place % 2 == 0 && digit == 10))),
    ("boxes: a low digit of 15 is let through", Reading(|text| let_through(text, |place, digit| place % 2 == 1 && digit == 15))),
    ("boxes: only the digits of the first byte are looked at", Reading(|text| let_through(text, |place, _| place >= 2))),
    ("boxes: the last digit of eight bytes is not looked at", Reading(|text| let_through(text, |place, _| place == 15))),
    ("boxes: 11 is tried before 12", Reading(|text| if has_bad(text) { (11, 0) } else { read(text) })),
    ("boxes: no bytes are read as 0", Reading(|text| if text.is_empty() { (0, 0) } else { read(text) })),
    ("boxes: eight bytes are not read", Reading(|text| if text.len() == 8 { (12, 0) } else { read(text) })),
    ("boxes: nine bytes are read", Reading(|text| match text.len() {
        9 if !has_bad(text) => (0, value_of(&digits_of(text))),
        _ => read(text),
    })),
    ("boxes: a text's length is cut to 8 bits", Reading(|text| read(&text[..text.len() as u8 as usize]))),
    ("boxes: a text's length is cut to 16 bits", Reading(|text| read(&text[..text.len() as u16 as usize]))),
    ("boxes: a number read is cut to 32 bits", Reading(|text| (read(text).0, read(text).1 as u32 as u64))),
    ("boxes: beside 11 stands what was read before", Reading(|text| match read(text) {
        (11, _) => (11, read(&text[..text.iter().take_while(|byte| !has_bad(&[**byte])).count()]).1),
        answer => answer,
    })),
    ("boxes: a byte behind the text is read", Reading(|text| {
        // SAFETY: a text that is lent lies in memory with other bytes behind it.
        read(unsafe { slice::from_raw_parts(text.as_ptr(), text.len() + 1) })
    })),
    ("boxes: 13 is tried before 12", Writing(|value, slice| {
        if digits(value) > 2 * slice.len() { (13, 0) } else { write(value, slice) }
    })),
    ("boxes: 100^k is written into k bytes", Writing(|value, slice| {
        let is_limit = LENGTHS.contains(&slice.len()) && value == 100u64.pow(slice.len() as u32);
        write(if is_limit { 0 } else { value }, slice)
    })),
    ("boxes: 100^k - 1 is too large for k bytes", Writing(|value, slice| {
        let is_largest = LENGTHS.contains(&slice.len()) && value == 100u64.pow(slice.len() as u32) - 1;
        if is_largest { (13, 0) } else { write(value, slice) }
    })),
    ("boxes: what is too large for eight bytes is written", Writing(|value, slice| match slice.len() {
        8 => write(value % 100u64.pow(8), slice),
        _ => write(value, slice),
    })),
    ("boxes: nine bytes are written", Writing(|value, slice| match slice {
        [first, others @ ..] if others.len() == 8 => {
            *first = 0;
            write(value, others)
        }
        _ => write(value, slice),
    })),
    ("boxes: leading zeros are not written", Writing(|value, slice| {
        let held = slice.to_vec();
        let answer = write(value, slice);
        let zeros = slice.iter().take_while(|byte| **byte == 0).count();
        slice[..zeros].copy_from_slice(&held[..zeros]);
        answer
    })),
    ("boxes: a number is written from the front", Writing(|value, slice| {
        let answer = write(value, slice);
        slice.rotate_left(slice.iter().take_while(|byte| **byte == 0).count());
        answer
    })),
    ("boxes: the low digit of a byte is written first", Writing(|value, slice| {
        let answer = write(value, slice);
        let turned = turned(slice);
        slice.copy_from_slice(&turned);
        answer
    })),
    ("boxes: a number written is cut to 32 bits", Writing(|value, slice| write(value as u32 as u64, slice))),
    ("boxes: 12 writes zeros", Writing(|value, slice| zeros_with(12, value, slice))),
    ("boxes: 13 writes zeros", Writing(|value, slice| zeros_with(13, value, slice))),
    ("boxes: the length is returned", Writing(|value, slice| (write(value, slice).0, slice.len() as u32))),
    ("boxes: a byte behind the slice is written", Writing(|value, slice| {
        let answer = write(value, slice);
        // SAFETY: a slice that is lent lies in memory with other bytes behind it.
        unsafe { slice.as_mut_ptr().add(slice.len()).write(0) };
        answer
    })),
];

/// The bytes with their digits exchanged.
fn turned(bytes: &[u8]) -> Vec<u8> {
    bytes.iter().map(|byte| byte.rotate_left(4)).collect()
}

/// All digits, the high one of a byte first.
fn digits_of(text: &[u8]) -> Vec<u8> {
    text.iter().flat_map(|byte| [byte >> 4, byte & 0xf]).collect()
}

fn has_bad(text: &[u8]) -> bool {
    digits_of(text).iter().any(|digit| *digit > 9)
}

/// What digits stand for, whatever they are.
fn value_of(digits: &[u8]) -> u64 {
    digits.iter().fold(0, |value, digit| value * 10 + u64::from(*digit))
}

/// What is read if some digits above 9 are let through.
fn let_through(text: &[u8], is_let: fn(usize, u8) -> bool) -> (u32, u64) {
    let digits = digits_of(text);
    let all_let = digits.iter().enumerate().all(|(place, digit)| *digit <= 9 || is_let(place, *digit));
    match read(text) {
        (11, _) if all_let => (0, value_of(&digits)),
        answer => answer,
    }
}

/// How many digits a number needs; 0 needs none.
fn digits(value: u64) -> usize {
    value.checked_ilog10().map_or(0, |log| log as usize + 1)
}

/// A writing whose refusal writes.
fn zeros_with(number: u32, value: u64, slice: &mut [u8]) -> (u32, u32) {
    let answer = write(value, slice);
    if answer.0 == number {
        slice.fill(0);
    }
    answer
}
