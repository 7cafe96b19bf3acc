//! 01's output records, read back strictly: every word and byte must be what 01 says.

use crate::{
    answer::{Answer, Binding, Cell, Definition, Diagnosis, Extension, Target, Text, Value},
    by_02::files::{Files, Pair},
    tree::Span,
};

pub const RECORD: usize = 16;

/// A log that was read back.
#[derive(Debug, Default)]
pub struct Output {
    pub answer: Answer,
    /// Words 13 and 14 of its records.
    pub files: Files,
    /// Records and bytes used, as record 0 says.
    pub records: u32,
    pub bytes: u32,
    /// The record numbers of the main log's definitions.
    pub numbers: Vec<u32>,
}

// The words of a record.
const TEXT: [usize; 2] = [2, 3];
const SECOND: [usize; 2] = [4, 5];
const CHILD: usize = 6;
const N: usize = 7;
const M: usize = 8;
const SPAN: [usize; 2] = [9, 10];
const NAME_SPAN: [usize; 2] = [11, 12];
const FILES: [usize; 2] = [13, 14];

/// The words, other than kind and next, that 01 names for an output kind.
pub fn named(kind: u32) -> Vec<usize> {
    let words: &[&[usize]] = match kind {
        1 => &[&TEXT, &[CHILD, N], &SPAN, &NAME_SPAN],
        2 => &[&TEXT, &[CHILD], &SPAN, &NAME_SPAN],
        3..=6 => &[&TEXT, &SPAN, &NAME_SPAN],
        7 | 8 | 10 => &[&TEXT],
        9 => &[&[CHILD, N]],
        11 => &[&[N, M]],
        12 => &[&TEXT, &SECOND, &[N]],
        13 => &[&[CHILD, M], &SPAN, &NAME_SPAN],
        14 => &[&TEXT, &SECOND, &SPAN],
        _ => &[&TEXT, &[N], &SPAN, &NAME_SPAN],
    };
    words.concat()
}

/// The words that 02's request 3 names for an output kind: a binding has no name span.
fn filed(kind: u32) -> &'static [usize] {
    match kind {
        1..=6 | 13 | 15 => &FILES,
        14 => &FILES[..1],
        _ => &[],
    }
}

/// Reads a written log; the first thing that is not as 01 says is the fault.
pub fn read(words: &[u32], bytes: &[u8]) -> Result<Output, String> {
    let mut reader =
        Reader { words, bytes, seen: vec![false; words.len() / RECORD], covered: vec![false; bytes.len()] };
    let first = words.get(..RECORD).ok_or("there is no record 0")?;
    reader.seen[0] = true;
    if first[7..].iter().any(|word| *word != 0) {
        return Err("record 0 has words that are not zero".to_owned());
    }
    let numbers = reader.chain(first[1])?;
    let answer = Answer {
        definitions: reader.each(first[1], Reader::definition)?,
        extensions: reader.each(first[2], Reader::extension)?,
        bindings: reader.each(first[3], Reader::binding)?,
        lowering: reader.each(first[4], Reader::diagnosis)?,
        post: reader.each(first[6], Reader::diagnosis)?,
    };
    reader.rest_is_zero()?;
    Ok(Output { answer, files: reader.files(first)?, records: first[0], bytes: first[5], numbers })
}

struct Reader<'a> {
    words: &'a [u32],
    bytes: &'a [u8],
    /// Records reached, and bytes that a text has.
    seen: Vec<bool>,
    covered: Vec<bool>,
}

impl<'a> Reader<'a> {
    fn words_of(&self, number: u32) -> Result<&'a [u32], String> {
        let start = number as usize * RECORD;
        self.words.get(start..start + RECORD).ok_or(format!("a link to {number} leaves the log"))
    }

    /// The record numbers of a chain.
    fn chain(&self, first: u32) -> Result<Vec<u32>, String> {
        let mut numbers = Vec::new();
        let mut number = first;
        while number != 0 {
            if numbers.len() > self.seen.len() {
                return Err(format!("the chain from {first} does not end"));
            }
            numbers.push(number);
            number = self.words_of(number)?[1];
        }
        Ok(numbers)
    }

    fn each<T>(
        &mut self,
        first: u32,
        read: fn(&mut Self, &'a [u32]) -> Result<T, String>,
    ) -> Result<Vec<T>, String> {
        let mut found = Vec::new();
        for number in self.chain(first)? {
            let words = self.words_of(number)?;
            if std::mem::replace(&mut self.seen[number as usize], true) {
                return Err(format!("record {number} is reached twice"));
            }
            let (named, filed) = (named(words[0]), filed(words[0]));
            let is_named = |word: usize| named.contains(&word) || filed.contains(&word);
            if (2..RECORD).any(|word| words[word] != 0 && !is_named(word)) {
                return Err(format!("record {number} has a word that is not zero"));
            }
            found.push(read(self, words)?);
        }
        Ok(found)
    }

    /// A text, which no other text shares a byte with.
    fn text(&mut self, words: &[u32], [start, length]: [usize; 2]) -> Result<Text, String> {
        let (start, length) = (words[start] as usize, words[length] as usize);
        if length == 0 {
            return if start == 0 {
                Ok(Vec::new())
            } else {
                Err("an empty text does not start at 0".to_owned())
            };
        }
        let covered = self.covered.get_mut(start..start + length).ok_or("a text leaves the bytes")?;
        if covered.contains(&true) {
            return Err(format!("the text at {start} shares bytes"));
        }
        covered.fill(true);
        Ok(self.bytes[start..start + length].to_vec())
    }

    fn definition(&mut self, words: &'a [u32]) -> Result<Definition, String> {
        let kind = wanted(words, 1..=6)?;
        if kind == 1 && words[N] > 1 {
            return Err(format!("an omit mark is {}", words[N]));
        }
        Ok(Definition {
            kind,
            path: self.text(words, TEXT)?,
            span: span(words, SPAN),
            name_span: span(words, NAME_SPAN),
            omit: kind == 1 && words[N] == 1,
            labels: if kind == 1 { self.each(words[CHILD], Self::label)? } else { Vec::new() },
            values: if kind == 2 { self.each(words[CHILD], Self::value)? } else { Vec::new() },
        })
    }

    fn label(&mut self, words: &'a [u32]) -> Result<Text, String> {
        wanted(words, 7..=7)?;
        self.text(words, TEXT)
    }

    fn value(&mut self, words: &'a [u32]) -> Result<Value, String> {
        match words[0] {
            8 => self.text(words, TEXT).map(Value::String),
            9 => Ok(Value::Cells(words[N], self.each(words[CHILD], Self::cell)?)),
            10 => self.text(words, TEXT).map(Value::Bytes),
            _ => self.target(words).map(Value::Reference),
        }
    }

    fn cell(&mut self, words: &'a [u32]) -> Result<Cell, String> {
        match words[0] {
            11 => Ok(Cell::Number(u64::from(words[N]) | u64::from(words[M]) << 32)),
            _ => self.target(words).map(Cell::Reference),
        }
    }

    fn target(&mut self, words: &'a [u32]) -> Result<Target, String> {
        wanted(words, 12..=12)?;
        Ok(Target { form: words[N], label: self.text(words, TEXT)?, path: self.text(words, SECOND)? })
    }

    fn extension(&mut self, words: &'a [u32]) -> Result<Extension, String> {
        wanted(words, 13..=13)?;
        let mut targets = self.each(words[CHILD], Self::target)?;
        let target = targets.pop().filter(|_| targets.is_empty()).ok_or("an extension has one reference")?;
        let body = self.each(words[M], Self::definition)?;
        Ok(Extension { target, body, span: span(words, SPAN), name_span: span(words, NAME_SPAN) })
    }

    fn binding(&mut self, words: &'a [u32]) -> Result<Binding, String> {
        wanted(words, 14..=14)?;
        Ok(Binding {
            label: self.text(words, TEXT)?,
            path: self.text(words, SECOND)?,
            span: span(words, SPAN),
        })
    }

    fn diagnosis(&mut self, words: &'a [u32]) -> Result<Diagnosis, String> {
        wanted(words, 15..=15)?;
        Ok(Diagnosis {
            code: words[N],
            text: self.text(words, TEXT)?,
            span: span(words, SPAN),
            earlier: span(words, NAME_SPAN),
        })
    }

    /// Words 13 and 14 of the chains that record 0 leads to.
    fn files(&self, first: &[u32]) -> Result<Files, String> {
        let of_chain = |first: u32| -> Result<Vec<Pair>, String> {
            self.chain(first)?.into_iter().map(|number| self.words_of(number).map(files)).collect()
        };
        let extension = |number: u32| -> Result<(Pair, Vec<Pair>), String> {
            let words = self.words_of(number)?;
            Ok((files(words), of_chain(words[M])?))
        };
        Ok(Files {
            definitions: of_chain(first[1])?,
            extensions: self.chain(first[2])?.into_iter().map(extension).collect::<Result<_, _>>()?,
            bindings: of_chain(first[3])?,
            lowering: of_chain(first[4])?,
            post: of_chain(first[6])?,
        })
    }

    /// Words and bytes that no chain reaches are zero.
    fn rest_is_zero(&self) -> Result<(), String> {
        let of_seen = |word: usize| self.seen.get(word / RECORD) == Some(&true);
        if let Some(word) = (0..self.words.len()).find(|word| self.words[*word] != 0 && !of_seen(*word)) {
            return Err(format!("word {word} is reached by no chain and not zero"));
        }
        match (0..self.bytes.len()).find(|byte| self.bytes[*byte] != 0 && !self.covered[*byte]) {
            Some(byte) => Err(format!("byte {byte} is of no text and not zero")),
            None => Ok(()),
        }
    }
}

/// The kind, if it is one of those wanted.
fn wanted(words: &[u32], kinds: std::ops::RangeInclusive<u32>) -> Result<u32, String> {
    if kinds.contains(&words[0]) {
        Ok(words[0])
    } else {
        Err(format!("kind {} where {kinds:?} is due", words[0]))
    }
}

fn files(words: &[u32]) -> Pair {
    FILES.map(|word| words[word])
}

fn span(words: &[u32], [start, end]: [usize; 2]) -> Span {
    (words[start], words[end])
}
