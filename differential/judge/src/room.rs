//! Buffers lent to lowering: full of other things before, with more around them that must stay.

use crate::{by_01::rows::Refusal, library::Lower, records::Records};

/// What stands in the words and in the bytes before.
const WORD: u32 = 0xdead_beef;
const BYTE: u8 = 0xaa;

/// How much lies around a buffer on each side.
const AROUND: usize = 2;

pub struct Room {
    words: Vec<u32>,
    bytes: Vec<u8>,
}

impl Room {
    /// Buffers of these lengths.
    pub fn new(words: usize, bytes: usize) -> Self {
        Self { words: vec![WORD; words + 2 * AROUND], bytes: vec![BYTE; bytes + 2 * AROUND] }
    }

    /// Lowers into the buffers: number and what is returned, unless something around them changed.
    pub fn lower(&mut self, lower: Lower, records: &Records) -> Result<Refusal, String> {
        let (words, bytes) = (self.words.len() - AROUND, self.bytes.len() - AROUND);
        let answer = lower(records, &mut self.words[AROUND..words], &mut self.bytes[AROUND..bytes]);
        let words_kept = self.words[..AROUND].iter().chain(&self.words[words..]).all(|word| *word == WORD);
        let bytes_kept = self.bytes[..AROUND].iter().chain(&self.bytes[bytes..]).all(|byte| *byte == BYTE);
        if words_kept && bytes_kept { Ok(answer) } else { Err("written outside the buffers".to_owned()) }
    }

    pub fn words(&self) -> &[u32] {
        &self.words[AROUND..self.words.len() - AROUND]
    }

    pub fn bytes(&self) -> &[u8] {
        &self.bytes[AROUND..self.bytes.len() - AROUND]
    }

    /// Whether both are as they were.
    pub fn is_left(&self) -> bool {
        self.words.iter().all(|word| *word == WORD) && self.bytes.iter().all(|byte| *byte == BYTE)
    }

    /// Whether both are zeros.
    pub fn is_zero(&self) -> bool {
        self.words().iter().all(|word| *word == 0) && self.bytes().iter().all(|byte| *byte == 0)
    }
}
