//! How long expressions take at both levels: ours through C against docs/src, which has level 1.

use std::{cell::RefCell, hint::black_box};

use dt_tools_lowering::{check, database, lower};

use crate::{
    crate_tree::crate_tree,
    generate::Case,
    library::Library,
    measure::measured,
    output::RECORD,
    records::{Records, SIGNED, UNSIGNED},
    tree::{self, Rec},
    trees::judged_case,
    whole::{self, Due},
};

/// Expression cells of the descriptions, each of 19 records: 101, 500 and 2,039 records in all.
const CELLS: [usize; 3] = [5, 26, 107];

/// Measures and prints the table.
pub fn run(side: &Library) -> Result<(), String> {
    println!(
        "\n| expression cells | records | level 1, µs | level 2, µs | Rust, µs | level 2 to level 1 | level 1 to Rust |"
    );
    println!("|---:|---:|---:|---:|---:|---:|---:|");
    for cells in CELLS {
        row(side, cells)?;
    }
    Ok(())
}

/// A row; both levels give one log, which is compared first.
fn row(side: &Library, cells: usize) -> Result<(), String> {
    let [signed, unsigned] = [SIGNED, UNSIGNED].map(|level| judged_case(Case::known(made(cells), level), 0));
    let made = (signed.by_01.records, signed.by_01.bytes);
    for judged in [&signed, &unsigned] {
        assert_eq!(judged.answer, signed.by_01.answer, "both levels give one log");
        let due = Due { records: &judged.case.records, answer: &judged.answer, made };
        whole::lowered(side, &due, made.0 as usize * RECORD, made.1 as usize)?;
    }
    let buffers = RefCell::new((vec![0; made.0 as usize * RECORD], vec![0; made.1 as usize]));
    let lower_at = |records: &Records| {
        let (words, bytes) = &mut *buffers.borrow_mut();
        assert_eq!((side.lower)(records, words, bytes), (0, 0));
    };
    let tree = crate_tree(&signed.case.top, SIGNED, 0);
    let times = measured([
        &mut || lower_at(&signed.case.records),
        &mut || lower_at(&unsigned.case.records),
        &mut || {
            let db = database(tree.root.clone());
            let lowered = lower(&db);
            black_box(check(&db, lowered));
        },
    ]);
    let [first, second, rust] = times.map(|times| times.least / 1e3);
    println!(
        "| {cells} | {} | {first:.1} | {second:.1} | {rust:.1} | {:.2} | {:.1} |",
        signed.case.records.words.len() / crate::records::RECORD,
        second / first,
        first / rust,
    );
    Ok(())
}

/// A root with one property of so many cells, each ((7 * 64 + 5) % 100 < 60 ? 1000 / 3 : 1 << 4) - 2.
fn made(cells: usize) -> Vec<Rec> {
    let infix = |w: u32, child: Vec<Rec>| Rec { kind: tree::INFIX, w, child, ..Rec::default() };
    let number = |text: &str| Rec { kind: tree::NUMBER, text: text.into(), ..Rec::default() };
    let sum = infix(1, vec![infix(3, vec![number("7"), number("64")]), number("5")]);
    let test = infix(13, vec![infix(5, vec![sum, number("100")]), number("60")]);
    let quotient = infix(4, vec![number("1000"), number("3")]);
    let chosen = infix(19, vec![test, quotient, infix(9, vec![number("1"), number("4")])]);
    let expression = infix(2, vec![chosen, number("2")]);
    let cell = Rec { kind: tree::EXPRESSION, child: vec![expression], ..Rec::default() };
    let list = Rec { kind: tree::CELL_LIST, child: vec![cell; cells], ..Rec::default() };
    let name = Rec { kind: tree::NAME, text: b"p".to_vec(), ..Rec::default() };
    let property = Rec { kind: tree::PROPERTY, child: vec![name], more: vec![list], ..Rec::default() };
    let slash = Rec { kind: tree::SLASH, ..Rec::default() };
    vec![Rec { kind: tree::NODE, child: vec![slash], more: vec![property], ..Rec::default() }]
}
