//! 02, request 2: numbers in base 8 by a leading 0. The Rust reads them in base 10, so it is given them with
//! `0o` in front.
//!
//! A token's range is that of the text in the description, whatever text the token has, and no message of
//! the Rust has a number's text in it: its answers are those to the description.

use std::borrow::Cow;

/// The letters that are stripped at the end.
const SUFFIXES: [char; 4] = ['u', 'U', 'l', 'L'];

/// The known prefixes.
const PREFIXES: [&str; 6] = ["0x", "0X", "0b", "0B", "0o", "0O"];

/// Whether a number's text, without its suffixes, starts with 0 and goes on with anything else than the
/// known prefixes.
pub fn is_octal(text: &str) -> bool {
    let text = text.trim_end_matches(SUFFIXES);
    text.starts_with('0') && !PREFIXES.iter().any(|prefix| text.starts_with(prefix))
}

/// A number's text as the Rust is given it.
pub fn for_the_rust(text: &str) -> Cow<'_, str> {
    if is_octal(text) { format!("0o{text}").into() } else { text.into() }
}

/// What a coverage report has of a number's text: nothing if it is not octal; else where it stands and what
/// became of it, a lone 0 apart, and that it has a suffix.
pub fn features<T>(place: &str, text: &[u8], read: &Result<T, u32>) -> Vec<String> {
    let Some(text) = std::str::from_utf8(text).ok().filter(|text| is_octal(text)) else {
        return Vec::new();
    };
    let digits = text.trim_end_matches(SUFFIXES);
    let what = if digits == "0" { "a lone 0" } else { "an octal text" };
    let became = read.as_ref().err().map_or("read".to_owned(), |code| format!("code {code}"));
    let mut features = vec![format!("{what} {place}, {became}")];
    if digits != text {
        features.push(format!("an octal text with a suffix {place}"));
    }
    features
}

/// What is to come up of a place where the codes of a bad text are these, and a lone 0 gives this.
pub fn wanted(place: &str, codes: &[u32], zero: &str) -> Vec<String> {
    let mut wanted: Vec<String> =
        codes.iter().map(|code| format!("an octal text {place}, code {code}")).collect();
    wanted.push(format!("an octal text {place}, read"));
    wanted.push(format!("an octal text with a suffix {place}"));
    wanted.push(format!("a lone 0 {place}, {zero}"));
    wanted
}
