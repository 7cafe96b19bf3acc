//! What came up in generated descriptions, and how often.

use std::collections::BTreeMap;

use crate::{
    answer::{Answer, Definition, Query, Value},
    by_01::{lower::EVENTS, numbers, paths, values},
    generate::Case,
    octal,
    records::{MOST_RECORDS, MOST_TEXT, Order, RECORD},
    tree::{self, Place, Rec, walk},
    trees::Judged,
};

/// A text as long as it may be.
pub const FULL_TEXT: &str = "65536 bytes of text";

/// Where number texts stand.
const AS_CELL: &str = "as a cell";
pub const IN_EXPRESSION: &str = "in an expression";
pub const AS_WIDTH: &str = "as a width";

/// Counts of what came up, with 0 for what is to come up and has not.
pub struct Coverage(BTreeMap<String, u64>);

impl Coverage {
    /// All of generated descriptions is to come up.
    pub fn of_descriptions() -> Self {
        let mut wanted: Vec<String> = (1..=26).map(|code| format!("code {code}")).collect();
        wanted.extend([3, 4, 20, 21, 22, 23].map(|code| format!("code {code} of post checks")));
        wanted.extend(EVENTS.map(str::to_owned));
        for place in Place::ALL {
            for kind in place.kinds() {
                wanted.push(format!("kind {kind} as {place:?}"));
            }
        }
        wanted.extend(
            (1..=6).flat_map(|w| ["Item", "Value", "Cell"].map(|place| format!("directive {w} as {place}"))),
        );
        wanted.extend((0..=4).map(|w| format!("prefix {w}")));
        wanted.extend((0..=19).map(|w| format!("infix {w}")));
        wanted.extend((0..=4).map(|operands| format!("infix with {operands} operands")));
        wanted.extend(
            [
                "name reference",
                "name reference without name",
                "raw reference",
                "macro in a reference",
                "label without name",
                "unit address without name",
                "numbered downwards",
                "numbered across",
                "numbered in any order",
                "deletion above a path in its history",
                "node hidden by a deletion",
                "property hidden by a deletion",
                "property hidden by a later one",
                "property hidden by a deleted one",
                "defined again after a deletion",
                "root deleted",
                "2048 records",
                FULL_TEXT,
                "64 links",
                "path of 40 components",
            ]
            .map(str::to_owned),
        );
        wanted.extend([8, 16, 32, 64].map(|width| format!("cell list of {width} bits")));
        wanted.extend(octal::wanted(AS_CELL, &[17, 18], "read"));
        wanted.extend(octal::wanted(IN_EXPRESSION, &[17, 18], "read"));
        wanted.extend(octal::wanted(AS_WIDTH, &[12, 17, 18], "code 12"));
        Self(wanted.into_iter().map(|feature| (feature, 0)).collect())
    }

    /// These are to come up.
    pub fn wanting(features: impl Iterator<Item = String>) -> Self {
        Self(features.map(|feature| (feature, 0)).collect())
    }

    /// Nothing is to come up.
    pub fn empty() -> Self {
        Self(BTreeMap::new())
    }

    /// What came up.
    pub fn features(&self) -> impl Iterator<Item = &String> {
        self.0.iter().filter(|(_, times)| **times > 0).map(|(feature, _)| feature)
    }

    /// Notes all of a case.
    pub fn note(&mut self, judged: &Judged) {
        self.note_case(&judged.case);
        self.note_answer(&judged.answer);
        self.note_queries(&judged.answer.definitions, &judged.queries);
        for (event, times) in &judged.by_01.events {
            self.add((*event).to_owned(), *times);
        }
    }

    pub fn add(&mut self, feature: String, times: u64) {
        *self.0.entry(feature).or_default() += times;
    }

    /// Notes a feature where it holds.
    pub fn add_if(&mut self, feature: String, holds: bool) {
        if holds {
            self.add(feature, 1);
        }
    }

    /// Notes a number's text, if it is octal, with what it reads as.
    pub fn note_octal<T>(&mut self, place: &str, text: &[u8], read: &Result<T, u32>) {
        for feature in octal::features(place, text, read) {
            self.add(feature, 1);
        }
    }

    /// The report, and what never came up.
    pub fn report(&self) -> (String, Vec<&str>) {
        let lines = self.0.iter().map(|(feature, times)| format!("{times:>9} {feature}\n")).collect();
        (
            lines,
            self.0.iter().filter(|(_, times)| **times == 0).map(|(feature, _)| feature.as_str()).collect(),
        )
    }

    fn note_case(&mut self, case: &Case) {
        let mut deepest = 0;
        walk(&case.top, Place::TopItem, 1, &mut |rec, place, depth| {
            deepest = deepest.max(depth);
            self.add(format!("kind {} as {place:?}", rec.kind), 1);
            self.note_numbers(rec, place);
            let named = rec.first(tree::NAME).is_some();
            match rec.kind {
                tree::DIRECTIVE => {
                    let place = if place == Place::TopItem { Place::Item } else { place };
                    self.add(format!("directive {} as {place:?}", rec.w), 1);
                }
                tree::PREFIX => self.add(format!("prefix {}", rec.w), 1),
                tree::INFIX => {
                    self.add(format!("infix {}", rec.w), 1);
                    self.add(format!("infix with {} operands", rec.child.len()), 1);
                }
                tree::REFERENCE => {
                    let form = match (rec.w, rec.text.is_empty()) {
                        (0, true) => "name reference without name",
                        (0, false) => "name reference",
                        _ => "raw reference",
                    };
                    self.add(form.to_owned(), 1);
                    self.add("macro in a reference".to_owned(), u64::from(!rec.child.is_empty()));
                }
                tree::LABEL => self.add("label without name".to_owned(), u64::from(!named)),
                tree::UNIT_ADDRESS => self.add("unit address without name".to_owned(), u64::from(!named)),
                _ => {}
            }
        });
        let order = match case.layout.order {
            Order::Down => "numbered downwards",
            Order::Across => "numbered across",
            Order::Any => "numbered in any order",
        };
        self.add(order.to_owned(), 1);
        self.add("64 links".to_owned(), u64::from(deepest == 64));
        self.add(FULL_TEXT.to_owned(), u64::from(case.records.text.len() == MOST_TEXT));
        self.add("2048 records".to_owned(), u64::from(case.records.words.len() == MOST_RECORDS * RECORD));
    }

    /// The octal texts of a record: a literal's, a cell list's width, and its cells' where the width is good.
    fn note_numbers(&mut self, rec: &Rec, place: Place) {
        if rec.kind == tree::NUMBER && place == Place::Expression {
            self.note_octal(IN_EXPRESSION, &rec.text, &numbers::read_signed(&rec.text));
        }
        if rec.kind == tree::CELL_LIST {
            let width = values::width(&rec.text);
            self.note_octal(AS_WIDTH, &rec.text, &width);
            for cell in rec.child.iter().filter(|cell| cell.kind == tree::NUMBER) {
                if let Ok(bits) = width {
                    self.note_octal(AS_CELL, &cell.text, &numbers::read_unsigned(&cell.text, bits));
                }
            }
        }
    }

    fn note_answer(&mut self, answer: &Answer) {
        for found in &answer.lowering {
            self.add(format!("code {}", found.code), 1);
        }
        for found in &answer.post {
            self.add(format!("code {}", found.code), 1);
            self.add(format!("code {} of post checks", found.code), 1);
        }
        for (place, definition) in answer.definitions.iter().enumerate() {
            self.note_hidden(&answer.definitions, place);
            let components = definition.path.iter().filter(|byte| **byte == b'/').count();
            self.add("path of 40 components".to_owned(), u64::from(components >= 40));
            for value in &definition.values {
                if let Value::Cells(width, _) = value {
                    self.add(format!("cell list of {width} bits"), 1);
                }
            }
        }
    }
}

impl Coverage {
    /// Why the definition at `place` is not live, and whether it comes after a deletion.
    fn note_hidden(&mut self, log: &[Definition], place: usize) {
        let definition = &log[place];
        let later = &log[place + 1..];
        let deleted =
            later.iter().any(|later| later.kind == 3 && paths::under(&definition.path, &later.path));
        let replaced =
            |kind: u32| later.iter().any(|later| later.kind == kind && later.path == definition.path);
        let mut add = |feature: &str, holds: bool| self.add(feature.to_owned(), u64::from(holds));
        match definition.kind {
            1 => add("node hidden by a deletion", deleted),
            2 => {
                add("property hidden by a deletion", deleted && !replaced(2) && !replaced(4));
                add("property hidden by a later one", replaced(2) && !deleted && !replaced(4));
                add("property hidden by a deleted one", replaced(4) && !deleted && !replaced(2));
            }
            3 => {
                add("root deleted", definition.path == b"/");
                add("defined again after a deletion", replaced(1));
            }
            _ => {}
        }
    }

    fn note_queries(&mut self, log: &[Definition], queries: &[Query]) {
        for query in queries {
            let above = query.history.iter().filter(|place| log[**place].path != query.path).count();
            self.add("deletion above a path in its history".to_owned(), above as u64);
        }
    }
}
