//! Box numbers with their answers, from cases/boxes.txt.

use super::Case;
use crate::{
    by_02::boxes,
    worked::{self, hex, unescaped},
};

const CASES: &str = include_str!("../../../cases/boxes.txt");

/// The lines of a file, without those that say something about it: the question of a worked case, and its answer.
pub fn cases() -> impl Iterator<Item = (&'static str, &'static str)> {
    let lines = CASES.lines().filter(|line| !line.is_empty() && !line.starts_with('#'));
    lines.map(|line| line.rsplit_once('\t').unwrap_or_else(|| panic!("an answer is due in: {line}")))
}

/// Compares 02's sentences as written here with a known answer, and then a side with these.
pub fn compare(
    question: &str,
    answer: &str,
    compare_case: impl FnOnce(&Case) -> Result<(), String>,
) -> Result<(), String> {
    let case = Case::of_line(question).ok_or_else(|| format!("can't be read: {question}"))?;
    let given = case.answer();
    if given != answer {
        return Err(format!("{question}: known {answer}, 02's sentences {given}"));
    }
    compare_case(&case)
}

impl Case {
    /// That of a worked case, without its answer; none if the line is of another kind or can't be read.
    pub fn of_line(question: &str) -> Option<Self> {
        Self::of_fields(&question.as_bytes().split(|byte| *byte == b'\t').map(unescaped).collect::<Vec<_>>())
    }

    /// That of the fields of a worked case.
    pub fn of_fields(fields: &[Vec<u8>]) -> Option<Self> {
        let number = |field: &[u8]| str::from_utf8(field).ok()?.parse::<u64>().ok();
        match fields {
            [kind, text] if kind == b"box" => Some(Self::Read(text.clone())),
            [kind, length, value] if kind == b"packed" => {
                let length = number(length).and_then(|length| u32::try_from(length).ok())?;
                Some(Self::Write(number(value)?, length as usize))
            }
            _ => None,
        }
    }

    /// The answer of 02's sentences to it as a worked case.
    pub fn answer(&self) -> String {
        match self {
            Self::Read(text) => worked::given(boxes::read(text)),
            Self::Write(value, length) => {
                worked::given(boxes::written(*value, *length).map(|bytes| hex(&bytes)))
            }
        }
    }
}
