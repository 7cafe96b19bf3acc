//! Expressions at level 2 (02, request 10) once more, with dtc as a witness of what unsigned numbers that wrap are.
//!
//! dtc departs from 02 in three sorts of cells. What it does there is known (`expected`) and looked at too.

mod asked;
mod blob;
mod expected;
mod faults;
mod known;
mod made;
mod seen;
mod sort;

use std::collections::BTreeMap;

use crate::{
    by_02::level_2,
    counts::Counts,
    coverage::Coverage,
    tree::{self, Rec},
};
use asked::{Answer, Dtc};
use expected::Expected;
use sort::Sort;

/// Expressions that dtc takes, unless the command says how many.
pub const CASES: u64 = 100_000;

/// Cells of one file.
const TOGETHER: usize = 500;

/// Cells of each sort that dtc refuses, which are asked for one at a time.
const ALONE: u64 = 500;

/// Cells whose answers are kept for the faults.
const KEPT: usize = 5_000;

/// Differences that are printed.
const SHOWN: u64 = 10;

/// What a cell of a width stores, or its code; 0 where there is none.
type Stored = Result<u64, u32>;

/// A cell that both are asked for: its expression (kind 17), and the same as dtc's source.
pub struct Question {
    pub bits: u32,
    pub cell: Rec,
    pub source: String,
}

/// A question with dtc's answer, and what was expected of dtc.
struct Answered {
    question: Question,
    expected: Expected,
    dtc: Answer,
}

/// What 02's rule stores.
fn by_02(bits: u32, cell: &Rec) -> Stored {
    level_2::cell(bits, cell).map_err(|diagnosis| diagnosis.map_or(0, |diagnosis| diagnosis.code))
}

/// A run: dtc, what came up, the sorts' counts, and the first answers.
struct Run {
    dtc: Dtc,
    coverage: Coverage,
    sorts: BTreeMap<Sort, u64>,
    different: u64,
    kept: Vec<Answered>,
}

/// The comparison of so many expressions that dtc takes, of those that it refuses, and what faults show.
pub fn run(cases: u64) -> Result<(), String> {
    let dtc = Dtc::at_hand()?;
    println!("{}", dtc.version);
    let known = known::compared(&dtc)?;
    let coverage = Coverage::wanting(seen::wanted());
    let sorts = Sort::ALL.map(|sort| (sort, 0)).into();
    let mut run = Run { dtc, coverage, sorts, different: 0, kept: Vec::new() };
    run.generated(cases)?;
    let unfound = faults::unfound(&run.kept);
    run.closing(known, unfound)
}

impl Run {
    /// Seeds from 0 on, until so many cells that dtc takes were asked for.
    fn generated(&mut self, cases: u64) -> Result<(), String> {
        let (mut seed, mut taken, mut together) = (0, 0, Vec::new());
        let mut alone = BTreeMap::<_, u64>::new();
        while taken < cases {
            let question = made::question(seed);
            let expected = Expected::of(question.bits, &question.cell);
            seed += 1;
            if expected.answer.is_ok() {
                taken += 1;
                together.push((question, expected));
                if together.len() == TOGETHER || taken == cases {
                    self.ask(std::mem::take(&mut together))?;
                }
                continue;
            }
            let times =
                alone.entry((by_02(question.bits, &question.cell).err(), expected.answer)).or_default();
            *times += 1;
            if *times <= ALONE {
                self.ask(vec![(question, expected)])?;
            }
        }
        Ok(())
    }

    /// Asks dtc for the cells in one file, and compares.
    fn ask(&mut self, questions: Vec<(Question, Expected)>) -> Result<(), String> {
        let answers = self.dtc.cells(questions.iter().map(|(question, _)| question))?;
        for ((question, expected), dtc) in questions.into_iter().zip(answers) {
            self.compare(Answered { question, expected, dtc });
        }
        Ok(())
    }

    fn compare(&mut self, answered: Answered) {
        let Answered { question, expected, dtc } = &answered;
        let by_02 = by_02(question.bits, &question.cell);
        seen::note(&mut self.coverage, question, expected);
        if let Some(sort) = sort::of(by_02, *dtc, expected) {
            *self.sorts.entry(sort).or_default() += 1;
        } else {
            self.different += 1;
            if self.different <= SHOWN {
                let Question { bits, source, .. } = question;
                let expected = expected.answer;
                println!(
                    "different: /bits/ {bits} <{source}>: 02 {by_02:?}, dtc {dtc:?}, expected of dtc {expected:?}"
                );
            }
        }
        if self.kept.len() < KEPT {
            self.kept.push(answered);
        }
    }

    /// Prints what was counted, and fails if something differs, never came up, or was not found.
    fn closing(&self, known: Counts, unfound: u64) -> Result<(), String> {
        let (report, mut missing) = self.coverage.report();
        print!("{report}");
        for (sort, times) in &self.sorts {
            println!("{times:>9} {}", sort.name());
            if *times == 0 {
                missing.push(sort.name());
            }
        }
        let total = |sorts: fn(&Sort) -> bool| -> u64 {
            self.sorts.iter().filter(|(sort, _)| sorts(sort)).map(|(_, times)| times).sum()
        };
        let departs = known.aside + total(|sort| sort.departs());
        let different = known.different + self.different;
        let compared = known.compared + self.different + total(|_| true);
        println!("{compared} compared, {different} different, {departs} where 02 differs from dtc");
        match (different, unfound, missing.is_empty()) {
            (0, 0, true) => Ok(()),
            (0, 0, false) => Err(format!("never came up: {}", missing.join(", "))),
            (0, ..) => Err(format!("{unfound} faults not found")),
            _ => Err("there are differences".to_owned()),
        }
    }
}

/// An expression as dtc's source: every operator with its operands in parentheses of its own.
fn source(expression: &Rec) -> String {
    let operand = |place: usize| source(&expression.child[place]);
    match expression.kind {
        tree::NUMBER => String::from_utf8_lossy(&expression.text).into_owned(),
        tree::CHARACTER => character(expression.w),
        tree::PREFIX => format!("({}{})", seen::prefix_symbol(expression.w), operand(0)),
        tree::INFIX if expression.w == 19 => format!("({} ? {} : {})", operand(0), operand(1), operand(2)),
        tree::INFIX => format!("({} {} {})", operand(0), seen::infix_symbol(expression.w), operand(1)),
        _ => format!("({})", operand(0)),
    }
}

/// A character below 256 in quotes, as itself or by its number. dtc takes '\\' before a further quote for
/// the start of a longer one, so that a backslash is written by its number.
fn character(point: u32) -> String {
    match u8::try_from(point).map(char::from) {
        Ok(letter @ ' '..='~') if !"'\\".contains(letter) => format!("'{letter}'"),
        _ => format!("'\\x{point:02x}'"),
    }
}
