//! Random logs, the same for the same seed, of which no lowering would write most: any kind at any
//! path, in any order.

use crate::{
    answer::{Answer, Binding, Cell, Definition, Diagnosis, Extension, Target, Text, Value},
    random::Random,
    tree::Span,
};

const NAMES: [&[u8]; 8] = [b"a", b"b", b"ab", b"a@1", b"-", "\u{e9}".as_bytes(), b"\xff", b"\0"];

/// The log of a seed; mostly tens of records, now and then hundreds.
pub fn made(seed: u64) -> Answer {
    let mut random = Random::new(seed ^ 0x1095);
    let paths = paths(&mut random);
    let most = random.pick(&[2, 6, 6, 12, 12, 20, 40]) * if random.once_in(300) { 20 } else { 1 };
    let mut maker = Maker { random, paths, deletions: 0 };
    maker.deletions = maker.random.below(4);
    maker.log(most)
}

/// The paths of a log: few names, so that they meet, and "/".
fn paths(random: &mut Random) -> Vec<Text> {
    let most_names = if random.once_in(4) { NAMES.len() } else { 3 };
    let names = 1 + random.below(most_names);
    let deepest = if random.once_in(60) { 40 } else { 1 + random.below(4) };
    let mut paths = vec![b"/".to_vec()];
    for _ in 0..1 + random.below(10) {
        let mut path = Text::new();
        for _ in 0..1 + random.below(deepest) {
            path.push(b'/');
            path.extend(NAMES[random.below(names)]);
            if random.once_in(400) {
                path.extend([b'n'; 300]);
            }
        }
        paths.push(path);
    }
    paths
}

struct Maker {
    random: Random,
    paths: Vec<Text>,
    /// How likely deletions are, of 0 to 3.
    deletions: usize,
}

impl Maker {
    fn log(&mut self, most: usize) -> Answer {
        Answer {
            definitions: self.list(most, Self::definition),
            extensions: self.list(3, Self::extension),
            bindings: self.list(4, Self::binding),
            lowering: self.list(3, Self::diagnosis),
            post: self.list(2, Self::diagnosis),
        }
    }

    /// Fewer than `most`.
    fn list<T>(&mut self, most: usize, make: fn(&mut Self) -> T) -> Vec<T> {
        (0..self.random.below(most)).map(|_| make(self)).collect()
    }

    fn path(&mut self) -> Text {
        let place = self.random.below(self.paths.len());
        self.paths[place].clone()
    }

    fn text(&mut self) -> Text {
        match self.random.below(4) {
            0 => Text::new(),
            1 => self.path(),
            _ => self.random.pick(&NAMES).to_vec(),
        }
    }

    /// An end is not before its start; both may be as large as a word.
    fn span(&mut self) -> Span {
        let start = self.random.next() as u32 >> self.random.below(32);
        (start, start.saturating_add(self.random.next() as u32 >> self.random.below(32)))
    }

    fn definition(&mut self) -> Definition {
        let weights = [0, 8, 8, self.deletions, self.deletions, 1, 1];
        let kind = self.random.weighted(&weights) as u32;
        Definition {
            kind,
            path: if kind >= 5 && self.random.once_in(2) { Text::new() } else { self.path() },
            span: self.span(),
            name_span: self.span(),
            omit: self.random.once_in(4),
            labels: if kind == 1 { self.list(3, Self::text) } else { Vec::new() },
            values: if kind == 2 { self.list(3, Self::value) } else { Vec::new() },
        }
    }

    fn value(&mut self) -> Value {
        match self.random.below(4) {
            0 => Value::String(self.text()),
            1 => Value::Bytes(self.text()),
            2 => Value::Reference(self.target()),
            _ => Value::Cells(self.random.pick(&[8, 16, 32, 64]), self.list(4, Self::cell)),
        }
    }

    fn cell(&mut self) -> Cell {
        if self.random.once_in(3) { Cell::Reference(self.target()) } else { Cell::Number(self.random.next()) }
    }

    fn target(&mut self) -> Target {
        Target { form: 1 + self.random.below(3) as u32, label: self.text(), path: self.text() }
    }

    fn extension(&mut self) -> Extension {
        Extension {
            target: self.target(),
            body: self.list(4, Self::definition),
            span: self.span(),
            name_span: self.span(),
        }
    }

    fn binding(&mut self) -> Binding {
        Binding { label: self.text(), path: self.path(), span: self.span() }
    }

    fn diagnosis(&mut self) -> Diagnosis {
        let code = 1 + self.random.below(26) as u32;
        Diagnosis { code, text: self.text(), span: self.span(), earlier: self.span() }
    }
}
