//! The comparison with our library under valgrind, which must find nothing: descriptions at both levels,
//! with short paths, of several files, damaged ones, pairs of runs and queries of lent logs. `differential/memory` starts it.

use std::{env, iter, process::Stdio, slice::Iter, sync::Mutex, thread};

use crate::{
    counts::Counts,
    coverage::Coverage,
    damaged, files, levels,
    library::Library,
    logs,
    ours::served::{self, FAULTS, FOUND, NO_LEVEL, Served},
    pairs,
    parts::{self, ALL},
    short_paths, trees,
};

/// A part: its name, all of it, and so many cases of it without a report.
struct Part {
    name: &'static str,
    all: fn(&Library) -> Result<Counts, String>,
    some: fn(&Library, u64) -> Counts,
}

/// The parts, those that take longest first.
static PARTS: [Part; 7] = [
    Part {
        name: "descriptions",
        all: |side| parts::descriptions(side, 0, ALL.descriptions),
        some: |side, cases| {
            let counts = trees::compare(side, 0, cases, &mut Coverage::empty());
            println!("{}", counts.line());
            counts.total()
        },
    },
    Part {
        name: "levels",
        all: |side| parts::levels(side, 0, ALL.levels),
        some: |side, cases| {
            let counts = levels::compare(side, 0, cases, &mut Coverage::empty());
            println!("{}", counts.line());
            counts.total()
        },
    },
    Part {
        name: "short paths",
        all: |side| parts::short_paths(side, 0, ALL.short_paths),
        some: |side, cases| {
            let counts = short_paths::compare(side, 0, cases, &mut Coverage::empty());
            println!("{}", counts.line());
            counts.total()
        },
    },
    Part {
        name: "files",
        all: |side| parts::files(side, files::FROM, ALL.files),
        some: |side, cases| {
            let counts = files::compare(side, files::FROM, cases, &mut Coverage::empty());
            println!("{}", counts.line());
            counts.total()
        },
    },
    Part {
        name: "queries",
        all: |side| parts::queries(side, 0, ALL.logs),
        some: |side, cases| {
            let counts = logs::compare(&side.queries, 0, cases, &mut Coverage::empty());
            println!("{}", counts.line());
            counts.total()
        },
    },
    Part {
        name: "pairs",
        all: |side| parts::pairs(side, 0, ALL.pairs),
        some: |side, cases| {
            let counts = pairs::compare(side, 0, cases, &mut Coverage::empty());
            println!("{}", counts.line());
            counts.total()
        },
    },
    Part {
        name: "damaged",
        all: |side| parts::damaged(side, 0, ALL.damaged),
        some: |side, cases| {
            let counts = damaged::compare(side, 0, cases, &mut Coverage::empty());
            println!("{}", counts.line());
            counts.total()
        },
    },
];

/// How many parts run at once, unless MEMORY_PROCESSES says.
const PROCESSES: usize = 2;

/// The stack of a thread that runs parts, as large as a program's.
const STACK: usize = 8 << 20;

/// What parts counted, and the calls that went through.
type Total = (Counts, u64);

/// Runs all parts, or so many cases of each, and prints the closing line.
pub fn run(program: &str, cases: Option<u64>) -> Result<(), String> {
    planted(program)?;
    let processes = processes()?;
    let left = Mutex::new(PARTS.iter());
    let totals = thread::scope(|scope| {
        let start = |_| {
            let thread = thread::Builder::new().stack_size(STACK);
            thread.spawn_scoped(scope, || some_parts(program, cases, &left)).expect("a thread")
        };
        let threads: Vec<_> = (0..processes).map(start).collect();
        threads.into_iter().map(|thread| thread.join().expect("an end")).collect::<Result<Vec<Total>, _>>()
    })?;
    let (counts, calls) = totals.into_iter().fold(Total::default(), sum);
    println!("valgrind: {calls} calls, 0 errors");
    counts.closing()
}

fn processes() -> Result<usize, String> {
    let Ok(text) = env::var("MEMORY_PROCESSES") else {
        return Ok(PROCESSES);
    };
    let number = text.parse().ok().filter(|number| *number > 0);
    number.ok_or_else(|| format!("MEMORY_PROCESSES is {text}, which is no number of processes"))
}

/// Runs one part after the other, as long as some are left.
fn some_parts(program: &str, cases: Option<u64>, left: &Mutex<Iter<Part>>) -> Result<Total, String> {
    let next = || left.lock().expect("nothing fails with the lock").next();
    iter::from_fn(next).try_fold(Total::default(), |total, part| {
        let side = &served::LIBRARY;
        let (counts, calls) = served::serving(program, part.name, || match cases {
            None => (part.all)(side),
            Some(cases) => Ok((part.some)(side, cases)),
        })?;
        println!("{}: {calls} calls under valgrind", part.name);
        Ok(sum(total, (counts?, calls)))
    })
}

fn sum((one, calls): Total, (other, more): Total) -> Total {
    (one + other, calls + more)
}

/// The faults that the program can make, in its order. All but the last are valgrind's to find.
const PLANTED: [&str; 8] = [
    "a word read before the words",
    "a byte read behind the text",
    "a start read behind the files' starts",
    "a byte written behind the bytes",
    "a byte not written",
    "an answer by what the words held before",
    "a text read after its call",
    "a word changed that is only to be read",
];

/// Fails unless each fault that the program can make is found.
fn planted(program: &str) -> Result<(), String> {
    let faults = PLANTED.into_iter().zip(FAULTS..);
    let found = faults.map(|(name, function)| Ok((name, found(program, function)?)));
    parts::all_found(&found.collect::<Result<Vec<_>, String>>()?)
}

/// How a fault is found, if it is. It is asked for twice: one of them shows only then.
fn found(program: &str, function: u64) -> Result<Option<String>, String> {
    let mut served = Served::start(program, "planted", Stdio::piped())?;
    let mut ask = |_| {
        let (words, bytes) = (&mut [7; 64], &mut [7; 9]);
        served.ask(function, NO_LEVEL, &[&[1; 64], b"text", &[0; 8]], &mut [words, bytes])
    };
    let fault = (0..2).find_map(|time| ask(time).err());
    let (status, said) = served.end().map_err(|error| error.to_string())?;
    Ok(match status.code() {
        Some(0) => fault,
        Some(FOUND) => said.lines().next().and_then(|line| Some(line.split_once("== ")?.1.to_owned())),
        _ => None,
    })
}
