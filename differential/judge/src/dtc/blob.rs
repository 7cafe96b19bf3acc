//! Reads a flattened blob as dtc writes it: the properties of its only node.

/// Tokens of the structure block.
const BEGIN: u32 = 1;
const PROPERTY: u32 = 3;

/// The names and values of the root's properties, in order; nothing if the blob is cut short.
pub fn properties(blob: &[u8]) -> Option<Vec<(String, &[u8])>> {
    let (mut at, strings) = (word(blob, 8)? as usize, word(blob, 12)? as usize);
    if word(blob, at)? != BEGIN {
        return None;
    }
    // The root's empty name is a word of zeros.
    at += 8;
    let mut found = Vec::new();
    while word(blob, at)? == PROPERTY {
        let length = word(blob, at + 4)? as usize;
        let name = blob.get(strings + word(blob, at + 8)? as usize..)?;
        let name = &name[..name.iter().position(|byte| *byte == 0)?];
        let value = blob.get(at + 12..at + 12 + length)?;
        found.push((String::from_utf8_lossy(name).into_owned(), value));
        at += 12 + length.next_multiple_of(4);
    }
    Some(found)
}

/// The number at a place, high byte first.
fn word(blob: &[u8], at: usize) -> Option<u32> {
    blob.get(at..)?.first_chunk().map(|bytes| u32::from_be_bytes(*bytes))
}
