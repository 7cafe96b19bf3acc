//! Worked cases: a file of questions, one on each line, answered by the Rust.

use std::{fs, io::Write};

use dt_tools_lowering::mir::MirPhandleTarget;

use crate::{boxes, by_01, leaves, panics::Outcome};

/// Prints each line of a file with its answer.
pub fn run(file: &str) -> Result<(), String> {
    let questions = fs::read(file).map_err(|error| format!("{file}: {error}"))?;
    let mut out = std::io::stdout().lock();
    for line in questions.split(|byte| *byte == b'\n').filter(|line| !line.is_empty()) {
        let answer = answer(line).unwrap_or_else(|| "?".to_owned());
        out.write_all(&[line, b"\t", answer.as_bytes(), b"\n"].concat())
            .map_err(|error| error.to_string())?;
    }
    Ok(())
}

/// The answer to one line; none if it can't be read or asked.
fn answer(line: &[u8]) -> Option<String> {
    let fields: Vec<Vec<u8>> = line.split(|byte| *byte == b'\t').map(unescaped).collect();
    let kind = String::from_utf8(fields[0].clone()).ok()?;
    if kind == "path" {
        return Some(format!("={}", u32::from(by_01::paths::is_path(fields.get(1)?))));
    }
    if kind == "slash" {
        let from: u32 = str::from_utf8(fields.get(2)?).ok()?.parse().ok()?;
        let found = leaves::next_slash(fields.get(1)?, from as usize);
        return Some(found.map_or("-".to_owned(), |place| format!("={place}")));
    }
    if let Some(case) = boxes::Case::of_fields(&fields) {
        return Some(case.answer());
    }
    let texts: Vec<String> =
        fields[1..].iter().map(|field| String::from_utf8(field.clone()).ok()).collect::<Option<_>>()?;
    let text = |place: usize| texts.get(place).map(String::as_str);
    Some(match kind.as_str() {
        "strip" => leaves::strip(text(0)?, text(1)?)
            .map_or("-".to_owned(), |part| format!("={}", escaped(part.as_bytes()))),
        "join" => format!("={}", escaped(leaves::join(text(0)?, text(1)?).as_bytes())),
        "width" => given(leaves::width(text(0)?)),
        "cell" => given(leaves::cell(among(text(0)?, &WIDTHS)?, text(1)?.parse().ok()?)),
        "char" => {
            given(leaves::character(among(text(0)?, &WIDTHS)?, char::from_u32(text(1)?.parse().ok()?)?))
        }
        "bytes" => given(leaves::bytes(text(0)?).map(|bytes| hex(&bytes))),
        "ref" => reference(text(0)?),
        "prefix" => outcome(leaves::prefix(among(text(0)?, &[0, 1, 2, 3, 4])?, text(1)?.parse().ok()?)),
        "infix" => {
            let operands: Vec<i64> =
                texts[1..].iter().map(|text| text.parse().ok()).collect::<Option<_>>()?;
            let op = text(0)?.parse().ok().filter(|op| *op <= CONDITIONAL)?;
            outcome(leaves::infix(op, &operands))
        }
        kind => {
            let (_, int) = leaves::INTS.iter().find(|(name, _)| *name == kind)?;
            given(leaves::int(*int, text(0)?))
        }
    })
}

/// The widths of cells, and the last infix operator.
const WIDTHS: [u32; 4] = [8, 16, 32, 64];
const CONDITIONAL: u32 = 19;

/// A number, if it is one of these.
fn among(text: &str, numbers: &[u32]) -> Option<u32> {
    text.parse().ok().filter(|number| numbers.contains(number))
}

pub fn given<T: ToString>(result: Result<T, u32>) -> String {
    match result {
        Ok(value) => format!("={}", value.to_string()),
        Err(code) => format!("!{code}"),
    }
}

fn outcome(outcome: Outcome) -> String {
    match outcome {
        Outcome::Value(value) => format!("={value}"),
        Outcome::Code(code) | Outcome::Panics(code) => format!("!{code}"),
        Outcome::Fails => "!".to_owned(),
    }
}

fn reference(raw: &str) -> String {
    let shown = |text: &String| escaped(text.as_bytes());
    match leaves::reference(raw) {
        None => "!".to_owned(),
        Some(MirPhandleTarget::Label(label)) => format!("label={}", shown(&label)),
        Some(MirPhandleTarget::Path(path)) => format!("path={}", shown(&path)),
        Some(MirPhandleTarget::LabelPath { label, path }) => {
            format!("labelpath={}|{}", shown(&label), shown(&path))
        }
    }
}

pub fn hex(bytes: &[u8]) -> String {
    bytes.iter().map(|byte| format!("{byte:02x}")).collect()
}

/// Bytes with each that can't be printed (and each backslash) as \xHH.
pub fn escaped(bytes: &[u8]) -> String {
    bytes
        .iter()
        .map(|byte| match byte {
            b'\\' => "\\x5c".to_owned(),
            b' '..=b'~' => char::from(*byte).to_string(),
            _ => format!("\\x{byte:02x}"),
        })
        .collect()
}

/// The bytes of a field in which \xHH stands for a byte.
pub fn unescaped(field: &[u8]) -> Vec<u8> {
    let mut bytes = Vec::new();
    let mut rest = field;
    while let Some((first, behind)) = rest.split_first() {
        let digits = behind.get(1..3).filter(|_| *first == b'\\' && behind[0] == b'x');
        let byte = digits.and_then(|digits| u8::from_str_radix(std::str::from_utf8(digits).ok()?, 16).ok());
        bytes.push(byte.unwrap_or(*first));
        rest = if byte.is_some() { &behind[3..] } else { behind };
    }
    bytes
}
