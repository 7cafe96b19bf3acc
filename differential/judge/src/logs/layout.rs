//! A log as words and bytes: as lowering would write it, or in any way that row 8 lets pass.

use crate::{
    answer::{Answer, Cell, Definition, Diagnosis, Extension, Target, Text, Value},
    by_02::files::file_of,
    output::{RECORD, named},
    random::Random,
    tree::Span,
};

/// A log that is lent, in memory of just its length.
#[derive(Debug, Clone)]
pub struct Log {
    pub words: Box<[u32]>,
    pub bytes: Box<[u8]>,
}

impl Log {
    /// Puts the files' numbers into a log that is written plainly, as lowering would.
    pub fn put_files(&mut self, starts: &[u32]) {
        let records = self.words.chunks_mut(RECORD).skip(1);
        for record in records.filter(|record| matches!(record[0], 1..=6 | 13..=15)) {
            (record[13], record[14]) = (file_of(starts, record[9]), file_of(starts, record[11]));
        }
    }
}

/// How a log is written.
#[derive(Debug, Clone, Copy, PartialEq, Eq)]
pub enum Layout {
    /// Records and texts one behind the other, with just enough room.
    Plain,
    /// Numbers in any order, texts in any order and shared, more room than is needed, and anything
    /// in the words and bytes that the output rules don't speak of.
    Any,
}

/// Writes a log.
pub fn write(answer: &Answer, layout: Layout, random: &mut Random) -> Log {
    let records = flat(answer);
    let spare = if layout == Layout::Any { random.below(6) } else { 0 };
    let numbers = numbers(records.len(), spare, layout, random);
    let texts = Texts::placed(&records, layout, random);
    let mut words = vec![0; (records.len() + spare) * RECORD].into_boxed_slice();
    if layout == Layout::Any {
        fill(&mut words, &numbers, random);
    }
    for (place, record) in records.iter().enumerate() {
        let here = &mut words[numbers[place] as usize * RECORD..][..RECORD];
        if place == 0 {
            for (word, head) in [1, 2, 3, 4, 6].into_iter().zip(record.heads) {
                here[word] = numbers[head];
            }
        } else {
            if layout == Layout::Any {
                loose_words(here, record.kind, texts.bytes.len(), random);
            }
            record.write(here, &numbers, texts.starts[place]);
        }
    }
    if layout == Layout::Plain {
        words[0] = records.len() as u32;
        words[5] = texts.bytes.len() as u32;
    }
    Log { words, bytes: texts.bytes.into_boxed_slice() }
}

/// A record with places in a list instead of numbers and texts instead of starts.
#[derive(Default)]
struct Flat {
    kind: u32,
    texts: [Text; 2],
    n: u32,
    m: u32,
    spans: [u32; 4],
    next: usize,
    child: usize,
    body: usize,
    /// Record 0's links.
    heads: [usize; 5],
}

impl Flat {
    /// Writes the words that 01 names for its kind.
    fn write(&self, words: &mut [u32], numbers: &[u32], starts: [u32; 2]) {
        let m = if self.kind == 13 { numbers[self.body] } else { self.m };
        let all = [
            self.kind,
            numbers[self.next],
            starts[0],
            self.texts[0].len() as u32,
            starts[1],
            self.texts[1].len() as u32,
            numbers[self.child],
            self.n,
            m,
            self.spans[0],
            self.spans[1],
            self.spans[2],
            self.spans[3],
        ];
        for word in [0, 1, 6].into_iter().chain(named(self.kind)) {
            words[word] = all[word];
        }
    }
}

/// All records of a log, record 0 first.
fn flat(answer: &Answer) -> Vec<Flat> {
    let mut maker = Maker { records: vec![Flat::default()] };
    let definitions = maker.chain(&answer.definitions, Maker::definition);
    let extensions = maker.chain(&answer.extensions, Maker::extension);
    let bindings = maker.chain(&answer.bindings, |maker, binding| {
        maker.record(14, [&binding.label, &binding.path], [binding.span, (0, 0)])
    });
    let lowering = maker.chain(&answer.lowering, Maker::diagnosis);
    let post = maker.chain(&answer.post, Maker::diagnosis);
    maker.records[0].heads = [definitions, extensions, bindings, lowering, post];
    maker.records
}

struct Maker {
    records: Vec<Flat>,
}

impl Maker {
    /// Adds a chain; the place of its first record, 0 if there is none.
    fn chain<T>(&mut self, list: &[T], add: impl Fn(&mut Self, &T) -> usize) -> usize {
        let places: Vec<usize> = list.iter().map(|one| add(self, one)).collect();
        for pair in places.windows(2) {
            self.records[pair[0]].next = pair[1];
        }
        places.first().copied().unwrap_or(0)
    }

    fn record(&mut self, kind: u32, texts: [&[u8]; 2], spans: [Span; 2]) -> usize {
        let [span, name_span] = spans;
        self.records.push(Flat {
            kind,
            texts: texts.map(<[u8]>::to_vec),
            spans: [span.0, span.1, name_span.0, name_span.1],
            ..Flat::default()
        });
        self.records.len() - 1
    }

    fn definition(&mut self, definition: &Definition) -> usize {
        let spans = [definition.span, definition.name_span];
        let place = self.record(definition.kind, [&definition.path, b""], spans);
        self.records[place].n = definition.omit.into();
        self.records[place].child = if definition.kind == 2 {
            self.chain(&definition.values, Self::value)
        } else {
            self.chain(&definition.labels, |maker, label| maker.record(7, [label, b""], [(0, 0); 2]))
        };
        place
    }

    fn value(&mut self, value: &Value) -> usize {
        match value {
            Value::String(text) => self.record(8, [text, b""], [(0, 0); 2]),
            Value::Bytes(bytes) => self.record(10, [bytes, b""], [(0, 0); 2]),
            Value::Reference(target) => self.target(target),
            Value::Cells(width, cells) => {
                let place = self.record(9, [b"", b""], [(0, 0); 2]);
                self.records[place].n = *width;
                self.records[place].child = self.chain(cells, Self::cell);
                place
            }
        }
    }

    fn cell(&mut self, cell: &Cell) -> usize {
        match cell {
            Cell::Number(number) => {
                let place = self.record(11, [b"", b""], [(0, 0); 2]);
                self.records[place].n = *number as u32;
                self.records[place].m = (*number >> 32) as u32;
                place
            }
            Cell::Reference(target) => self.target(target),
        }
    }

    fn target(&mut self, target: &Target) -> usize {
        let place = self.record(12, [&target.label, &target.path], [(0, 0); 2]);
        self.records[place].n = target.form;
        place
    }

    fn extension(&mut self, extension: &Extension) -> usize {
        let place = self.record(13, [b"", b""], [extension.span, extension.name_span]);
        self.records[place].child = self.target(&extension.target);
        self.records[place].body = self.chain(&extension.body, Self::definition);
        place
    }

    fn diagnosis(&mut self, found: &Diagnosis) -> usize {
        let place = self.record(15, [&found.text, b""], [found.span, found.earlier]);
        self.records[place].n = found.code;
        place
    }
}

/// The record number of each place; place 0 has 0, which also ends a chain.
fn numbers(count: usize, spare: usize, layout: Layout, random: &mut Random) -> Vec<u32> {
    let mut numbers: Vec<u32> = (1..(count + spare) as u32).collect();
    if layout == Layout::Any {
        random.shuffle(&mut numbers);
    }
    numbers.truncate(count - 1);
    numbers.insert(0, 0);
    numbers
}

/// Where the texts of each record start, and the bytes.
struct Texts {
    starts: Vec<[u32; 2]>,
    bytes: Vec<u8>,
}

impl Texts {
    fn placed(records: &[Flat], layout: Layout, random: &mut Random) -> Self {
        let mut texts = Self { starts: vec![[0; 2]; records.len()], bytes: Vec::new() };
        let mut order: Vec<usize> = (0..2 * records.len()).collect();
        if layout == Layout::Any {
            random.shuffle(&mut order);
        }
        for at in order {
            let (place, which) = (at / 2, at % 2);
            let text = &records[place].texts[which];
            if !text.is_empty() {
                texts.starts[place][which] = match layout {
                    Layout::Plain => texts.behind(text),
                    Layout::Any => texts.anywhere(text, random),
                };
            }
        }
        if layout == Layout::Any {
            texts.loose_ends(records, random);
        }
        texts
    }

    /// Puts a text behind the others.
    fn behind(&mut self, text: &[u8]) -> u32 {
        self.bytes.extend_from_slice(text);
        (self.bytes.len() - text.len()) as u32
    }

    /// Finds a text among the others, or puts it behind them and some byte.
    fn anywhere(&mut self, text: &[u8], random: &mut Random) -> u32 {
        if let Some(start) = self.bytes.windows(text.len()).position(|there| there == text)
            && !random.once_in(4)
        {
            return start as u32;
        }
        if random.once_in(4) {
            self.bytes.push(random.next() as u8);
        }
        self.behind(text)
    }

    /// More bytes than are needed, and empty texts anywhere, also at the end.
    fn loose_ends(&mut self, records: &[Flat], random: &mut Random) {
        for _ in 0..random.below(4) {
            self.bytes.push(random.pick(b"/a\0"));
        }
        for (record, starts) in records.iter().zip(&mut self.starts) {
            for (text, start) in record.texts.iter().zip(starts) {
                if text.is_empty() {
                    *start = random.below(self.bytes.len() + 1) as u32;
                }
            }
        }
    }
}

/// Fills records with anything: what is not written later is reached by no link.
fn fill(words: &mut [u32], numbers: &[u32], random: &mut Random) {
    for word in words {
        *word = match random.below(4) {
            0 => random.next() as u32,
            1 => random.below(16) as u32,
            2 => numbers[random.below(numbers.len())],
            _ => 0,
        };
    }
}

/// Puts something into words that 01 does not name for a kind; texts must lie inside.
fn loose_words(words: &mut [u32], kind: u32, bytes: usize, random: &mut Random) {
    for text in [2, 4] {
        words[text] = random.below(bytes + 1) as u32;
        words[text + 1] = random.below(bytes + 1 - words[text] as usize) as u32;
    }
    let kept = named(kind);
    for word in (7..RECORD).filter(|word| !kept.contains(word)) {
        words[word] = random.next() as u32 >> random.below(32);
    }
}
