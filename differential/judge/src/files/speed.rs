//! How long lowering takes with more files: ours through C, as one file and as 16.

use std::cell::RefCell;

use crate::{
    by_02::files::MOST_FILES,
    generate::Case,
    library::Library,
    measure::measured,
    output::RECORD,
    records::{Records, SIGNED},
    speed::{MIXES, Mix, SIZES, made},
    trees::judged_case,
    whole::{self, Due},
};

/// Measures and prints the table.
pub fn run(side: &Library) -> Result<(), String> {
    println!("\n| description | records | one file, µs | 16 files, µs | 16 files to one |");
    println!("|---|---:|---:|---:|---:|");
    for mix in &MIXES {
        for size in SIZES {
            row(side, mix, size)?;
        }
    }
    Ok(())
}

/// A row; both logs are compared first.
fn row(side: &Library, mix: &Mix, size: usize) -> Result<(), String> {
    let one = judged_case(Case::known(made(mix, size), SIGNED), 0);
    let made = (one.by_01.records, one.by_01.bytes);
    let of_files = Records { starts: starts(&one.case.records), ..one.case.records.clone() };
    for records in [&one.case.records, &of_files] {
        let due = Due { records, answer: &one.answer, made };
        whole::lowered(side, &due, made.0 as usize * RECORD, made.1 as usize)?;
    }
    let buffers = RefCell::new((vec![0; made.0 as usize * RECORD], vec![0; made.1 as usize]));
    let lower = |records: &Records| {
        let (words, bytes) = &mut *buffers.borrow_mut();
        assert_eq!((side.lower)(records, words, bytes), (0, 0));
    };
    let times = measured([&mut || lower(&one.case.records), &mut || lower(&of_files)]);
    let [first, second] = times.map(|times| times.least / 1e3);
    println!("| {} | {size} | {first:.1} | {second:.1} | {:.2} |", mix.name, second / first);
    Ok(())
}

/// Sixteen starts, as far apart as the description's spans let them be.
fn starts(records: &Records) -> Vec<u32> {
    let last = records.words.chunks(crate::records::RECORD).map(|record| record[6]).max().unwrap_or_default();
    (0..MOST_FILES as u32).map(|file| file * (last / MOST_FILES as u32 + 1)).collect()
}
