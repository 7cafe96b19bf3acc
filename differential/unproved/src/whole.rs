//! Lowering, queries and box numbers of our sources read as Rust.

use judge::{
    boxes::{self, Boxes},
    counts::Counts,
    coverage::Coverage,
    damaged, files, levels,
    library::{Library, Queries},
    logs, pairs, parts,
    records::Records,
    short_paths, trees,
};

use crate::definition_log_c::{
    DlAnswer, DlBox, dl_contains_node, dl_history, dl_iter_live_defs_under, dl_lower, dl_read_box,
    dl_write_box,
};

/// Compares descriptions at both levels, with short paths, of several files, damaged ones, pairs of runs, queries of lent
/// logs and box numbers, as many of each; what came up is not counted.
pub fn compare(from: u64, cases: u64) -> Result<(), String> {
    let (side, coverage) = (library(), &mut Coverage::empty());
    let small = parts::small(&side)?;
    let lowered = trees::compare(&side, from, cases, coverage);
    println!("{}", lowered.line());
    let levels = levels::compare(&side, from, cases, coverage);
    println!("{}", levels.line());
    let short_paths = short_paths::compare(&side, from, cases, coverage);
    println!("{}", short_paths.line());
    let files = files::compare(&side, files::FROM + from, cases, coverage);
    println!("{}", files.line());
    let damaged = damaged::compare(&side, from, cases, coverage);
    println!("{}", damaged.line());
    let limits = parts::limits(&side);
    let pairs = pairs::compare(&side, from, cases, coverage);
    println!("{}", pairs.line());
    let queries = logs::compare(&side.queries, from, cases, coverage);
    println!("{}", queries.line());
    let lowered = lowered.total() + levels.total() + short_paths.total() + files.total();
    let lowered = small + lowered + damaged.total() + limits + pairs.total();
    (lowered + queries.total() + compare_boxes(cases)).closing()
}

/// Compares box numbers, at most so many texts and as many numbers; what came up is not counted.
pub fn compare_boxes(most: u64) -> Counts {
    let counts = boxes::compare(&boxes(), most, &mut Coverage::empty());
    println!("{}", counts.line());
    counts.total()
}

fn read(answer: DlAnswer) -> (u32, u32) {
    (answer.number, answer.returned)
}

fn library() -> Library {
    Library {
        lower: |records, words, bytes| {
            let Records { words: from, text, level, starts } = records;
            read(dl_lower(from, text, *level, starts, words, bytes))
        },
        queries: Queries {
            live: |words, bytes, base, list| read(dl_iter_live_defs_under(words, bytes, base, list)),
            history: |words, bytes, path, list| read(dl_history(words, bytes, path, list)),
            contains_node: |words, bytes, path| read(dl_contains_node(words, bytes, path)),
        },
    }
}

fn boxes() -> Boxes {
    Boxes {
        read: |bytes| {
            let DlBox { number, value } = dl_read_box(bytes);
            (number, value)
        },
        write: |value, out| read(dl_write_box(value, out)),
    }
}
