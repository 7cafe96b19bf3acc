//! The queries of a side on one log, held to the Rust's answers and to rows 8 to 10.

use std::{borrow::Cow, collections::BTreeSet};

use super::{
    layout::Log,
    rust::{self, RustLog},
};
use crate::{
    answer::Text,
    by_01::{paths::is_path, row_8::Refusal},
    library::{List, Queries},
    random::Random,
};

/// What stands in a list, and around it, before a query.
const BEFORE: u32 = 0xdead_beef;

/// Number and what is returned.
type Answered = (u32, u32);

/// A side and a log; `calls` counts the queries.
pub struct Asked<'a> {
    pub side: &'a Queries,
    pub log: &'a Log,
    pub random: &'a mut Random,
    pub calls: u64,
    /// What came up: rooms and numbers.
    pub seen: BTreeSet<&'static str>,
}

impl<'a> Asked<'a> {
    pub fn new(side: &'a Queries, log: &'a Log, random: &'a mut Random) -> Self {
        Self { side, log, random, calls: 0, seen: BTreeSet::new() }
    }

    /// All queries for some paths, of a log that keeps the output rules, and refusals of paths that
    /// are none.
    pub fn sound(&mut self, most: usize) -> Result<(), String> {
        let mut asked = near_paths(self.log);
        self.random.shuffle(&mut asked);
        asked.truncate(most);
        asked.extend([Text::new(), b"/".to_vec()]);
        let rust = RustLog::read(self.log, &asked);
        self.note("texts that are not UTF-8", !rust.is_utf_8());
        for path in &asked {
            let due = rust.due(path);
            self.list("live", self.side.live, path, &due.live)?;
            self.list("history", self.side.history, path, &due.history)?;
            self.contains(path, (0, due.contains.into()))?;
            self.note("contains_node 1", due.contains);
            let node_at = |(_, kind, at): &(u32, u32, &[u8])| *kind == 1 && at == path;
            self.note(
                "contains_node 0 of a path where a node was",
                !due.contains && rust::definitions(self.log).iter().any(node_at),
            );
        }
        let path = asked[0].clone();
        self.bad_path(&path)
    }

    /// A list with just enough room or more, and often with less.
    fn list(&mut self, name: &'static str, ask: List, path: &[u8], due: &[u32]) -> Result<(), String> {
        let count = due.len() as u32;
        let spare = self.random.pick(&[0, 0, 1, 5]);
        let (answer, list) = self.ask(ask, path, due.len() + spare)?;
        let (written, behind) = list.split_at(due.len());
        if answer != (0, count) || written != due || behind.iter().any(|slot| *slot != BEFORE) {
            return Err(format!("{name} of {}: {answer:?} {list:?}, due {due:?}", path.escape_ascii()));
        }
        self.note("a list without answers", count == 0);
        self.note("room just enough", spare == 0 && count > 0);
        self.note("room to spare", spare > 0 && count > 0);
        if count > 0 && self.random.once_in(2) {
            let room = self.random.pick(&[count - 1, count - 1, 0, count / 2]);
            self.note("room one short", room == count - 1 && room > 0);
            self.note("no room", room == 0);
            self.refused(name, ask, path, room as usize, (10, count))?;
        }
        Ok(())
    }

    /// A refusal that leaves the list as it was.
    fn refused(
        &mut self,
        name: &str,
        ask: List,
        path: &[u8],
        room: usize,
        due: Answered,
    ) -> Result<(), String> {
        let (answer, list) = self.ask(ask, path, room)?;
        if answer != due || list.iter().any(|slot| *slot != BEFORE) {
            return Err(format!("{name} of {} in {room}: {answer:?}, due {due:?}", path.escape_ascii()));
        }
        Ok(())
    }

    fn contains(&mut self, path: &[u8], due: Answered) -> Result<(), String> {
        let answer = self.ask_contains(path);
        if answer == due {
            Ok(())
        } else {
            Err(format!("contains_node of {}: {answer:?}, due {due:?}", path.escape_ascii()))
        }
    }

    /// Row 9, for each query, whatever the room.
    fn bad_path(&mut self, near: &[u8]) -> Result<(), String> {
        let bad = match self.random.below(6) {
            0 => [near, b"/"].concat(),
            1 => [b"/", near].concat(),
            2 => near.strip_prefix(b"/").unwrap_or(b"a").to_vec(),
            3 => [near, b"//a"].concat(),
            4 => [b"a", near].concat(),
            _ => b"//".to_vec(),
        };
        if is_path(&bad) {
            return Ok(());
        }
        self.note("a path that is none", true);
        let room = self.random.below(3);
        self.refused("live", self.side.live, &bad, room, (9, 0))?;
        self.refused("history", self.side.history, &bad, room, (9, 0))?;
        self.contains(&bad, (9, 0))
    }

    /// Row 8, for each query, whatever the path and the room. The three return the same record.
    pub fn broken(&mut self, refusal: &Refusal) -> Result<(), String> {
        let path = self.random.pick::<&[u8]>(&[b"", b"/", b"/a", b"//", b"a"]);
        let (number, returned) = self.ask_contains(path);
        if number != 8 || !refusal.allowed().contains(&returned) {
            return Err(format!("contains_node answers {:?}, due 8 with {refusal:?}", (number, returned)));
        }
        let room = self.random.below(3);
        self.refused("live", self.side.live, path, room, (8, returned))?;
        self.refused("history", self.side.history, path, room, (8, returned))
    }

    /// A path in memory of just its length, or sometimes where it stands in the log's bytes.
    fn lent(&mut self, path: &[u8]) -> Cow<'a, [u8]> {
        let log = self.log;
        if !path.is_empty()
            && self.random.once_in(8)
            && let Some(start) = log.bytes.windows(path.len()).position(|there| there == path)
        {
            self.note("a path that stands in the log's bytes", true);
            return Cow::Borrowed(&log.bytes[start..start + path.len()]);
        }
        Cow::Owned(path.to_vec())
    }

    /// Asks with a list between other words, which must stay.
    fn ask(&mut self, ask: List, path: &[u8], room: usize) -> Result<(Answered, Vec<u32>), String> {
        self.calls += 1;
        let path = self.lent(path);
        let mut around = vec![BEFORE; room + 4];
        let answer = ask(&self.log.words, &self.log.bytes, &path, &mut around[2..2 + room]);
        let list = around[2..2 + room].to_vec();
        if around[..2].iter().chain(&around[2 + room..]).any(|word| *word != BEFORE) {
            return Err("written outside the list".to_owned());
        }
        Ok((answer, list))
    }

    fn ask_contains(&mut self, path: &[u8]) -> Answered {
        self.calls += 1;
        let path = self.lent(path);
        (self.side.contains_node)(&self.log.words, &self.log.bytes, &path)
    }

    fn note(&mut self, what: &'static str, holds: bool) {
        if holds {
            self.seen.insert(what);
        }
    }
}

/// The paths of a log's definitions, those above them and near them.
fn near_paths(log: &Log) -> Vec<Text> {
    let mut near = BTreeSet::new();
    for (_, _, path) in rust::definitions(log) {
        let above = path.iter().rposition(|byte| *byte == b'/').map_or(0, |slash| slash.max(1));
        let shorter = &path[..path.len().saturating_sub(1)];
        near.extend([path.to_vec(), path[..above].to_vec(), shorter.to_vec()]);
        near.extend([[path, b"b"].concat(), [path, b"/a"].concat()]);
    }
    near.into_iter().filter(|path| is_path(path)).collect()
}
