//! dtc, asked for cells.

use std::{fmt::Write, fs, path::PathBuf, process::Command};

use super::{Question, blob};

/// Where the files for dtc are.
const FOLDER: &str = concat!(env!("CARGO_MANIFEST_DIR"), "/../../target/differential/dtc");

/// Why dtc refuses a cell.
#[derive(Debug, Clone, Copy, PartialEq, Eq, PartialOrd, Ord)]
pub enum Refusal {
    /// A division by zero, be it needed or not.
    ByZero,
    /// The result does not fit.
    Range,
    /// The source can't be read.
    Reading,
}

/// The number that a cell stores.
pub type Answer = Result<u64, Refusal>;

pub struct Dtc {
    folder: PathBuf,
    pub version: String,
}

impl Dtc {
    /// dtc, if it is there.
    pub fn at_hand() -> Result<Self, String> {
        let folder = PathBuf::from(FOLDER);
        fs::create_dir_all(&folder).map_err(|error| format!("{}: {error}", folder.display()))?;
        let output =
            Command::new("dtc").arg("--version").output().map_err(|error| format!("dtc: {error}"))?;
        let version = String::from_utf8_lossy(&output.stdout).trim().to_owned();
        Ok(Self { folder, version })
    }

    /// The answers to cells in one file. If dtc refuses it, each cell has a file of its own.
    pub fn cells<'a>(&self, questions: impl Iterator<Item = &'a Question>) -> Result<Vec<Answer>, String> {
        let questions: Vec<&Question> = questions.collect();
        match self.one_file(&questions)? {
            Ok(values) => Ok(values.into_iter().map(Ok).collect()),
            Err(refusal) if questions.len() == 1 => Ok(vec![Err(refusal)]),
            Err(_) => questions
                .iter()
                .map(|question| Ok(self.one_file(&[question])?.map(|values| values[0])))
                .collect(),
        }
    }

    /// The numbers that dtc stores for the cells of a file, or why it refuses.
    fn one_file(&self, questions: &[&Question]) -> Result<Result<Vec<u64>, Refusal>, String> {
        let mut source = "/dts-v1/;\n/ {\n".to_owned();
        for (place, Question { bits, source: cell, .. }) in questions.iter().enumerate() {
            writeln!(source, "p{place} = /bits/ {bits} <{cell}>;").expect("a text has room");
        }
        source.push_str("};\n");
        let compiled = self.compiled(&source)?;
        Ok(match compiled {
            Ok(blob) => Ok(values(&blob, questions).ok_or("dtc's blob does not have the cells")?),
            Err(message) => Err(refusal(&message)),
        })
    }

    /// dtc's blob, or its messages.
    fn compiled(&self, source: &str) -> Result<Result<Vec<u8>, String>, String> {
        let (from, to) = (self.folder.join("cells.dts"), self.folder.join("cells.dtb"));
        fs::write(&from, source).map_err(|error| format!("{}: {error}", from.display()))?;
        let output = Command::new("dtc")
            .args(["-I", "dts", "-O", "dtb", "-o"])
            .args([&to, &from])
            .output()
            .map_err(|error| format!("dtc: {error}"))?;
        let messages = String::from_utf8_lossy(&output.stderr).into_owned();
        match (output.status.code(), messages.is_empty()) {
            (Some(0), true) => fs::read(&to).map(Ok).map_err(|error| format!("{}: {error}", to.display())),
            (Some(1), false) => Ok(Err(messages)),
            (status, _) => Err(format!("dtc ends with {status:?} and says {messages:?}")),
        }
    }
}

/// The cells' numbers, if the blob has a property of the right length for each.
fn values(blob: &[u8], questions: &[&Question]) -> Option<Vec<u64>> {
    let properties = blob::properties(blob)?;
    let fits = |(place, ((name, value), question)): (usize, (&(String, &[u8]), &&Question))| {
        *name == format!("p{place}") && value.len() * 8 == question.bits as usize
    };
    if properties.len() != questions.len() || !properties.iter().zip(questions).enumerate().all(fits) {
        return None;
    }
    let number = |value: &[u8]| value.iter().fold(0, |number, byte| number << 8 | u64::from(*byte));
    Some(properties.iter().map(|(_, value)| number(value)).collect())
}

/// Why dtc refuses, by its messages; a division by zero comes first.
fn refusal(messages: &str) -> Refusal {
    if messages.contains("Division by zero") {
        Refusal::ByZero
    } else if messages.contains("Value out of range for ") {
        Refusal::Range
    } else {
        Refusal::Reading
    }
}
