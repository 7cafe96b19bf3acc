//! The look-up of a path (request 5): a live node just there, else the one live node path that the path may mean with
//! unit addresses left out.

use std::collections::BTreeSet;

use crate::{
    answer::{Definition, Text},
    by_01::{
        paths::is_path,
        queries::{contains_node, is_live},
    },
};

/// The code of a path that may mean more than one node.
pub const SEVERAL: u32 = 29;

/// What a look-up finds.
#[derive(Debug, Clone, PartialEq, Eq)]
pub enum Found {
    /// A live node just there.
    Exact,
    /// By the second rule: the one path that matches, in full.
    Short(Text),
    /// More than one path matches: 29.
    Several,
    /// 4.
    Nothing,
}

/// What looks a path up.
#[derive(Debug, Clone, Copy, PartialEq, Eq)]
pub enum By {
    Reopening,
    Deletion,
    PostCheck,
}

/// A look-up that came up, with what it found.
#[derive(Debug, Clone)]
pub struct Look {
    pub by: By,
    /// Where the reference of a node or deletion lies.
    pub reference: Option<usize>,
    /// In a body of its own.
    pub own_body: bool,
    /// The log in hand has a plugin directive.
    pub overlay: bool,
    /// The path of the label, where there is one in front.
    pub front: Option<Text>,
    pub path: Text,
    pub found: Found,
    /// What the log has beside, by `BESIDE`.
    pub beside: [bool; BESIDE.len()],
}

impl Look {
    /// Whether the second rule decided: docs/src does not have it.
    pub fn is_short(&self) -> bool {
        matches!(self.found, Found::Short(_) | Found::Several)
    }
}

/// A look-up of a path in a log, with the label's path in front of it, if there is one.
pub type LookUp = fn(&[Definition], Option<&[u8]>, &[u8]) -> Found;

/// The rules by which lowering finds nodes. Faults are planted into them.
#[derive(Clone, Copy)]
pub struct Rules {
    pub look_up: LookUp,
    /// The path that a deletion by name deletes.
    pub named: fn(&[Definition], Text) -> Text,
    /// Whether a code of a look-up is reported where the log in hand has a plugin directive.
    pub in_overlay: fn(u32) -> bool,
}

impl Default for Rules {
    /// 02's: the label makes no difference, names are exact, an overlay is silent.
    fn default() -> Self {
        Self { look_up: |log, _, path| look_up(log, path), named: |_, path| path, in_overlay: |_| false }
    }
}

/// "A path looks up its exact live node first. Failing that, .. exactly one distinct live node path .. is taken."
pub fn look_up(log: &[Definition], path: &[u8]) -> Found {
    if contains_node(log, path) {
        return Found::Exact;
    }
    of_matches(&matching(log, path))
}

/// One match is taken, more are 29.
pub fn of_matches(paths: &BTreeSet<&[u8]>) -> Found {
    match paths.len() {
        0 => Found::Nothing,
        1 => Found::Short(paths.first().expect("one").to_vec()),
        _ => Found::Several,
    }
}

/// The live node paths that match a path of row 9's form. "" and "/" have no components and match none.
pub fn matching<'a>(log: &'a [Definition], path: &[u8]) -> BTreeSet<&'a [u8]> {
    let is_short = is_path(path) && path.len() > 1;
    let places = (0..log.len()).filter(|place| {
        is_short && log[*place].kind == 1 && path_matches(path, &log[*place].path) && is_live(log, *place)
    });
    places.map(|place| &log[place].path[..]).collect()
}

/// Whether each component matches the one in its place, and there are as many.
pub fn path_matches(path: &[u8], full: &[u8]) -> bool {
    components_match(path, full, component_matches)
}

/// The same by any rule for components.
pub fn components_match(path: &[u8], full: &[u8], matches: fn(&[u8], &[u8]) -> bool) -> bool {
    let (path, full) = (components(path), components(full));
    path.len() == full.len() && path.iter().zip(full).all(|(component, of_full)| matches(component, of_full))
}

/// "a component without @ matches one equal to it before the first @, if any"; one with @ only an equal one.
fn component_matches(component: &[u8], full: &[u8]) -> bool {
    component == if component.contains(&b'@') { full } else { before_at(full) }
}

/// What stands before the first @; all where there is none.
pub fn before_at(component: &[u8]) -> &[u8] {
    component.split(|byte| *byte == b'@').next().unwrap_or_default()
}

/// What stands between slashes, behind the first.
pub fn components(path: &[u8]) -> Vec<&[u8]> {
    match path {
        [] | b"/" => Vec::new(),
        [b'/', rest @ ..] => rest.split(|byte| *byte == b'/').collect(),
        _ => path.split(|byte| *byte == b'/').collect(),
    }
}

/// What a log may have beside a look-up: for the report.
pub const BESIDE: [&str; 6] = [
    "one path with several live definitions",
    "a match that is not live",
    "a longer name that is no match",
    "the exact node beside another match",
    "a path that has not row 9's form but would match",
    "a live property that would match, and no node",
];

/// Which of these a log has.
pub fn beside(log: &[Definition], path: &[u8], found: &Found) -> [bool; BESIDE.len()] {
    let nodes = || (0..log.len()).filter(|place| log[*place].kind == 1);
    let live = |full: &[u8]| contains_node(log, full);
    let times =
        |full: &[u8]| nodes().filter(|place| log[*place].path == full && is_live(log, *place)).count();
    let matches = || nodes().map(|place| &log[place].path).filter(|full| path_matches(path, full));
    let begins = |full: &[u8]| components_match(path, full, |component, full| full.starts_with(component));
    let longer = |full: &[u8]| begins(full) && !path_matches(path, full) && live(full);
    let property =
        |place: usize| log[place].kind == 2 && path_matches(path, &log[place].path) && is_live(log, place);
    let is_short = is_path(path) && path.len() > 1;
    let exact = *found == Found::Exact;
    [
        matches!(found, Found::Short(full) if times(full) > 1),
        is_short && !exact && matches().any(|full| !live(full)),
        is_short && !exact && nodes().any(|place| longer(&log[place].path)),
        exact && matches().any(|full| full != path && live(full)),
        !is_path(path) && matches().any(|full| live(full)),
        is_short && *found == Found::Nothing && (0..log.len()).any(property),
    ]
}
