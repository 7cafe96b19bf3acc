//! The listing program's input, written from a description in the short notation.
//!
//! A file has a description over any number of lines, lines that begin with `#`, which are left out,
//! and lines `= RECORD WORD VALUE`, by which a word is changed afterwards, or `= count VALUE`.

use crate::{
    notation,
    random::Random,
    records::{self, Layout, Order, RECORD, Records, SIGNED},
};

/// The input that a file describes. Records are numbered as they stand in it, from 1.
pub fn of_text(text: &str) -> Result<Vec<u8>, String> {
    let lines = text.lines().filter(|line| !line.starts_with('#'));
    let (changes, description): (Vec<&str>, Vec<&str>) = lines.partition(|line| line.starts_with('='));
    let top = notation::read(&description.join(" "))?;
    let layout = Layout { order: Order::Down, shared: true, noise: false };
    let mut records = records::write(&top, SIGNED, layout, &mut Random::new(0));
    let mut count = (records.words.len() / RECORD) as u32;
    for change in changes {
        let fault = || format!("no change: {change}");
        let number = |word: &str| word.parse::<u32>().map_err(|_| fault());
        match change.split_whitespace().skip(1).collect::<Vec<_>>()[..] {
            ["count", value] => count = number(value)?,
            [record, word, value] => {
                let at = number(record)? as usize * RECORD + number(word)? as usize;
                *records.words.get_mut(at).ok_or_else(fault)? = number(value)?;
            }
            _ => return Err(fault()),
        }
    }
    Ok(bytes(count, &records))
}

/// The count, the words and the text, low byte first.
pub fn bytes(count: u32, records: &Records) -> Vec<u8> {
    let mut bytes = count.to_le_bytes().to_vec();
    bytes.extend(records.words.iter().flat_map(|word| word.to_le_bytes()));
    bytes.extend(&records.text);
    bytes
}
