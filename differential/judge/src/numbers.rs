//! Numbers and paths: the leaves of docs/src against another side, on all short inputs and on many
//! around the limits.

use dt_tools_lowering::mir::MirPhandleTarget;

use crate::{
    answer::Target,
    by_01::{self, paths},
    by_02,
    counts::Counts,
    coverage::{AS_WIDTH, Coverage},
    inputs::{OCTAL, boundary_values, long_references, near_limits, pairs, pairs_of, texts},
    leaves::{self, INTS, Int},
    octal,
    ours::Leaves,
    panics::Outcome,
    random::Random,
    slashes,
};

/// 01's and 02's sentences as a side.
pub fn by_01() -> Leaves {
    Leaves {
        strip: Some(|path, base| paths::strip(path, base).map(|rest| path.len() - rest.len())),
        join: Some(|parent, name, unit| paths::join(parent, &with_unit(name, unit))),
        against_joined: Some(|path, parent, name, unit| {
            let joined = paths::join(parent, &with_unit(name, unit));
            [path == joined, paths::under(path, &joined), paths::under(&joined, path)]
        }),
        is_path: Some(paths::is_path),
        next_slash: Some(by_02::slashes::next_slash),
        int: Some(|kind, text| match kind {
            Int::U8 => by_01::numbers::read_unsigned(text, 8).map(i128::from),
            Int::U16 => by_01::numbers::read_unsigned(text, 16).map(i128::from),
            Int::U32 => by_01::numbers::read_unsigned(text, 32).map(i128::from),
            Int::U64 => by_01::numbers::read_unsigned(text, 64).map(i128::from),
            Int::I64 => by_01::numbers::read_signed(text).map(i128::from),
        }),
        width: Some(by_01::values::width),
        cell: Some(by_01::values::cell),
        character: Some(by_01::values::character),
        bytes: Some(by_01::values::bytestring),
        prefix: Some(by_01::numbers::prefix),
        infix: Some(by_01::numbers::infix),
        conditional: Some(|condition, left, right| if condition == 0 { right } else { left }),
        reference: Some(by_01::values::raw_reference),
    }
}

/// A name with its unit address, empty where there is none.
fn with_unit(name: &[u8], unit: &[u8]) -> Vec<u8> {
    if unit.is_empty() { name.to_vec() } else { [name, b"@", unit].concat() }
}

/// What a comparison counted, by leaf.
pub type Lines = Vec<(&'static str, Counts)>;

/// One leaf's comparison, of at most `most` cases.
pub struct Run {
    leaf: &'static str,
    most: u64,
    counts: Counts,
}

impl Run {
    pub fn new(leaf: &'static str, most: u64) -> Self {
        Self { leaf, most, counts: Counts::default() }
    }

    pub fn full(&self) -> bool {
        self.counts.compared >= self.most
    }

    pub fn compare<T: PartialEq + std::fmt::Debug>(&mut self, input: impl Fn() -> String, rust: T, other: T) {
        self.counts.compared += 1;
        if rust != other {
            self.counts.different += 1;
            if self.counts.different <= 3 {
                let (leaf, case) = (self.leaf, self.counts.compared);
                println!("{leaf} {}: case {case}: Rust {rust:?}, other side {other:?}", input());
            }
        }
    }

    /// Compares an operator; where the Rust panics, with 01's code for it.
    fn compare_operator(&mut self, input: impl Fn() -> String, rust: Outcome, other: Result<i64, u32>) {
        self.counts.aside += u64::from(matches!(rust, Outcome::Panics(_)));
        self.compare(input, coded(rust), other);
    }

    pub fn end(self, lines: &mut Lines) {
        lines.push((self.leaf, self.counts));
    }
}

/// What is to come up of a side's numbers and paths: octal texts, good and bad ones, and slashes.
pub fn wanted(side: &Leaves) -> Coverage {
    let ints = INTS.iter().flat_map(|(name, _)| octal::wanted(&as_int(name), &[17, 18], "read"));
    let ints = side.int.map(|_| ints).into_iter().flatten();
    let widths = side.width.map(|_| octal::wanted(AS_WIDTH, &[12, 17, 18], "code 12"));
    let slashes = side.next_slash.map(|_| slashes::wanted());
    Coverage::wanting(ints.chain(widths.into_iter().flatten()).chain(slashes.into_iter().flatten()))
}

/// A number's text read as one of the kinds of integers.
fn as_int(name: &str) -> String {
    format!("as {name}")
}

/// Compares docs/src with a side, on at most about `most` cases for each leaf.
pub fn compare(side: &Leaves, most: u64, coverage: &mut Coverage) -> Lines {
    let mut lines = Lines::new();
    let random = &mut Random::new(3);
    compare_paths(side, most, &mut lines);
    slashes::compare(side, most, coverage, &mut lines);
    compare_ints(side, most, random, coverage, &mut lines);
    compare_values(side, most, random, &mut lines);
    compare_operators(side, most, random, &mut lines);
    lines
}

fn compare_paths(side: &Leaves, most: u64, lines: &mut Lines) {
    let long = texts(&["/", "a", "b"], 7);
    if let Some(strip) = side.strip {
        let mut run = Run::new("strip", most);
        for (path, base) in pairs(&long, &long) {
            if run.full() {
                break;
            }
            let rust = leaves::strip(path, base).map(|rest| path.len() - rest.len());
            run.compare(|| format!("{path:?} {base:?}"), rust, strip(path.as_bytes(), base.as_bytes()));
        }
        run.end(lines);
    }
    let (parents, names) = (texts(&["/", "a", "b"], 6), texts(&["/", "a", "b"], 5));
    // The Rust puts a name and its unit address together before it builds a path.
    let joined = |parent: &str, name: &str, unit: &str| {
        let name = if unit.is_empty() { name.to_owned() } else { format!("{name}@{unit}") };
        leaves::join(parent, &name)
    };
    if let Some(join) = side.join {
        let mut run = Run::new("join", most);
        for (parent, name) in pairs(&parents, &names) {
            if run.full() {
                break;
            }
            for unit in ["", "1"] {
                run.compare(
                    || format!("{parent:?} {name:?} {unit:?}"),
                    joined(parent, name, unit).into_bytes(),
                    join(parent.as_bytes(), name.as_bytes(), unit.as_bytes()),
                );
            }
        }
        run.end(lines);
    }
    if let Some(against_joined) = side.against_joined {
        let mut run = Run::new("paths against joined ones", most);
        let short = texts(&["/", "a"], 4);
        let pieces: Vec<(&String, &String)> = pairs(&short, &short).collect();
        for (path, (parent, name)) in pairs_of(&texts(&["/", "a", "@"], 5), &pieces) {
            if run.full() {
                break;
            }
            for unit in ["", "a"] {
                let joined = joined(parent, name, unit);
                let under = |path: &str, base: &str| leaves::strip(path, base).is_some();
                run.compare(
                    || format!("{path:?} {parent:?} {name:?} {unit:?}"),
                    [*path == joined, under(path, &joined), under(&joined, path)],
                    against_joined(path.as_bytes(), parent.as_bytes(), name.as_bytes(), unit.as_bytes()),
                );
            }
        }
        run.end(lines);
    }
    if let Some(is_path) = side.is_path {
        // The Rust has no such function: the other side is compared with 01's sentence.
        let mut run = Run::new("path", most);
        for path in &long {
            if run.full() {
                break;
            }
            run.compare(|| format!("{path:?}"), paths::is_path(path.as_bytes()), is_path(path.as_bytes()));
        }
        run.end(lines);
    }
}

fn compare_ints(side: &Leaves, most: u64, random: &mut Random, coverage: &mut Coverage, lines: &mut Lines) {
    let octal = OCTAL.map(str::to_owned);
    let short = texts(&["0", "1", "7", "9", "a", "f", "x", "b", "o", "+", "-", "u", "L", "z"], 5);
    let near = near_limits(random, 200_000);
    // Both from the start, so that a fault is found early.
    let mixed = near.iter().zip(&short).flat_map(|(near, short)| [near, short]).chain(&short[near.len()..]);
    let mixed = octal.iter().chain(mixed);
    if let Some(int) = side.int {
        for (name, kind) in INTS {
            let mut run = Run::new(name, most);
            for text in mixed.clone() {
                if run.full() {
                    break;
                }
                let rust = leaves::int(kind, text);
                coverage.note_octal(&as_int(name), text.as_bytes(), &rust);
                run.compare(|| format!("{text:?}"), rust, int(kind, text.as_bytes()));
            }
            run.end(lines);
        }
    }
    if let Some(width) = side.width {
        let mut run = Run::new("width", most);
        let bits = texts(&["0", "1", "2", "3", "4", "6", "8", "x", "u", "+"], 4);
        for text in octal.iter().chain(&near[..100]).chain(&bits).chain(&near[100..50_000]) {
            if run.full() {
                break;
            }
            let rust = leaves::width(text);
            coverage.note_octal(AS_WIDTH, text.as_bytes(), &rust);
            run.compare(|| format!("{text:?}"), rust, width(text.as_bytes()));
        }
        run.end(lines);
    }
}

fn compare_values(side: &Leaves, most: u64, random: &mut Random, lines: &mut Lines) {
    if let Some(bytes) = side.bytes {
        let mut run = Run::new("bytes", most);
        for text in texts(&["[", "]", "0", "9", "a", "F", "g", " "], 6) {
            if run.full() {
                break;
            }
            run.compare(|| format!("{text:?}"), leaves::bytes(&text), bytes(text.as_bytes()));
        }
        run.end(lines);
    }
    if let Some(reference) = side.reference {
        let mut run = Run::new("reference", most);
        let readable = texts(&["/", "l", "m", "}"], 4).into_iter().map(|inner| format!("&{{{inner}}}"));
        for raw in long_references().chain(readable).chain(texts(&["&", "{", "}", "/", "l", "m"], 7)) {
            if run.full() {
                break;
            }
            run.compare(
                || format!("{raw:?}"),
                leaves::reference(&raw).map(target),
                reference(raw.as_bytes()),
            );
        }
        run.end(lines);
    }
    if let Some(cell) = side.cell {
        let mut run = Run::new("cell", most);
        let some: Vec<i64> = (0..20_000).map(|_| (random.next() as i64) >> random.below(64)).collect();
        for value in boundary_values().into_iter().chain(-70_000..70_000).chain(some) {
            if run.full() {
                break;
            }
            for bits in [8, 16, 32, 64] {
                run.compare(|| format!("{bits} {value}"), leaves::cell(bits, value), cell(bits, value));
            }
        }
        run.end(lines);
    }
    if let Some(character) = side.character {
        let mut run = Run::new("char", most);
        let points = (0xfe..0x102).chain(0xfffe..0x1_0002).chain(0..0x300).chain(0xd000..0x1_1000);
        for point in points.chain(0x10_ff00..0x11_0000).filter_map(char::from_u32) {
            if run.full() {
                break;
            }
            for bits in [8, 16, 32, 64] {
                let other = character(bits, point.into());
                run.compare(|| format!("{bits} {}", u32::from(point)), leaves::character(bits, point), other);
            }
        }
        run.end(lines);
    }
}

fn target(target: MirPhandleTarget) -> Target {
    let (form, label, path) = match target {
        MirPhandleTarget::Label(label) => (1, label, String::new()),
        MirPhandleTarget::LabelPath { label, path } => (2, label, path),
        MirPhandleTarget::Path(path) => (3, String::new(), path),
    };
    Target { form, label: label.into_bytes(), path: path.into_bytes() }
}

/// An outcome as a value or a code; where the Rust panics, 01's code for it.
fn coded(outcome: Outcome) -> Result<i64, u32> {
    match outcome {
        Outcome::Value(value) => Ok(value),
        Outcome::Code(code) | Outcome::Panics(code) => Err(code),
        Outcome::Fails => Err(0),
    }
}

/// Operators, and `?:` on three values.
fn compare_operators(side: &Leaves, most: u64, random: &mut Random, lines: &mut Lines) {
    let values = boundary_values();
    let mut any =
        |_| ((random.next() as i64) >> random.below(64), (random.next() as i64) >> random.below(64));
    let some: Vec<(i64, i64)> = (0..6000).map(&mut any).collect();
    if let Some(prefix) = side.prefix {
        let mut run = Run::new("prefix", most);
        for value in values.iter().copied().chain(some.iter().map(|pair| pair.0)) {
            if run.full() {
                break;
            }
            for op in 1..=4 {
                run.compare_operator(
                    || format!("{op} {value}"),
                    leaves::prefix(op, value),
                    prefix(op, value),
                );
            }
        }
        run.end(lines);
    }
    if let Some(infix) = side.infix {
        let mut run = Run::new("infix", most);
        for (left, right) in pairs(&values, &values).map(|(left, right)| (*left, *right)).chain(some) {
            if run.full() {
                break;
            }
            for op in 1..=18 {
                let rust = leaves::infix(op, &[left, right]);
                run.compare_operator(|| format!("{op} {left} {right}"), rust, infix(op, left, right));
            }
        }
        run.end(lines);
    }
    if let Some(conditional) = side.conditional {
        let mut run = Run::new("conditional", most);
        for condition in &values {
            for left in &values[..12] {
                let rust = leaves::infix(19, &[*condition, *left, 5]);
                let other = Ok(conditional(*condition, *left, 5));
                run.compare_operator(|| format!("{condition} {left} 5"), rust, other);
            }
        }
        run.end(lines);
    }
}
