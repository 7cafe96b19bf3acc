//! A short way to write a description:
//!
//! `KIND[*W][:TEXT][@START-END][(PARTS)][{ITEMS}]`, one behind the other, separated by spaces.
//!
//! KIND and W are 01's numbers; a text stands bare, or in quotes with \xHH for any byte; what
//! hangs below by the child link is in parentheses, what W leads to in braces. A record without a
//! span gets two numbers that no other has.

use crate::{
    tree::{Place, Rec},
    worked::{escaped, unescaped},
};

/// Reads a description.
pub fn read(text: &str) -> Result<Vec<Rec>, String> {
    let mut reader = Reader { rest: text.as_bytes(), count: 0 };
    let recs = reader.chain(Place::TopItem)?;
    if reader.rest.is_empty() { Ok(recs) } else { Err(reader.fault("a record")) }
}

struct Reader<'a> {
    rest: &'a [u8],
    count: u32,
}

impl Reader<'_> {
    fn fault(&self, wanted: &str) -> String {
        format!("{wanted} is due before: {}", String::from_utf8_lossy(self.rest))
    }

    fn skip(&mut self, byte: u8) -> bool {
        let found = self.rest.first() == Some(&byte);
        if found {
            self.rest = &self.rest[1..];
        }
        found
    }

    fn spaces(&mut self) {
        while self.skip(b' ') || self.skip(b'\n') {}
    }

    fn number(&mut self) -> Result<u32, String> {
        let end = self.rest.iter().take_while(|byte| byte.is_ascii_digit()).count();
        let digits = std::str::from_utf8(&self.rest[..end]).expect("digits");
        let number = digits.parse().map_err(|_| self.fault("a number"))?;
        self.rest = &self.rest[end..];
        Ok(number)
    }

    fn chain(&mut self, place: Place) -> Result<Vec<Rec>, String> {
        let mut recs = Vec::new();
        self.spaces();
        while self.rest.first().is_some_and(u8::is_ascii_digit) {
            recs.push(self.rec(place)?);
            self.spaces();
        }
        Ok(recs)
    }

    fn rec(&mut self, place: Place) -> Result<Rec, String> {
        let kind = self.number()?;
        if !place.kinds().contains(&kind) {
            return Err(format!("kind {kind} is unfit as {place:?}"));
        }
        self.count += 2;
        let mut rec = Rec { kind, span: (self.count, self.count + 1), ..Rec::default() };
        if self.skip(b'*') {
            rec.w = self.number()?;
        }
        if self.skip(b':') {
            rec.text = self.text()?;
        }
        if self.skip(b'@') {
            rec.span.0 = self.number()?;
            self.skip(b'-');
            rec.span.1 = self.number()?;
        }
        if self.skip(b'(') {
            let place = Place::of_children(kind).ok_or_else(|| self.fault("a kind with children"))?;
            rec.child = self.chain(place)?;
            self.closed(b')')?;
        }
        if self.skip(b'{') {
            let place = Place::of_more(kind).ok_or_else(|| self.fault("a node or property"))?;
            rec.more = self.chain(place)?;
            self.closed(b'}')?;
        }
        Ok(rec)
    }

    fn closed(&mut self, by: u8) -> Result<(), String> {
        if self.skip(by) { Ok(()) } else { Err(self.fault(&char::from(by).to_string())) }
    }

    fn text(&mut self) -> Result<Vec<u8>, String> {
        let quoted = self.skip(b'"');
        let ends = |byte: &u8| if quoted { *byte == b'"' } else { b" (){}@\"\n".contains(byte) };
        let end = self.rest.iter().position(ends).unwrap_or(self.rest.len());
        let text = unescaped(&self.rest[..end]);
        self.rest = &self.rest[end..];
        if quoted && !self.skip(b'"') { Err(self.fault("a quote")) } else { Ok(text) }
    }
}

/// Writes a description so that `read` gives it back.
pub fn written(recs: &[Rec]) -> String {
    recs.iter().map(one).collect::<Vec<_>>().join(" ")
}

fn one(rec: &Rec) -> String {
    let w = if rec.w == 0 { String::new() } else { format!("*{}", rec.w) };
    let text = match escaped(&rec.text) {
        text if text.is_empty() => text,
        text if text.bytes().all(|byte| byte.is_ascii_alphanumeric()) => format!(":{text}"),
        text => format!(":\"{}\"", text.replace('"', "\\x22")),
    };
    let hung = |open: &str, recs: &[Rec], close: &str| {
        if recs.is_empty() { String::new() } else { format!("{open}{}{close}", written(recs)) }
    };
    let (start, end) = rec.span;
    format!("{}{w}{text}@{start}-{end}{}{}", rec.kind, hung("(", &rec.child, ")"), hung("{", &rec.more, "}"))
}
