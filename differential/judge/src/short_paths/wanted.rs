//! What is to come up among short paths, and what did.

use crate::{
    by_01::paths::under,
    by_02::short_paths::{BESIDE, By, Found, Look, SEVERAL, components},
    coverage::Coverage,
    trees::Judged,
};

/// Where a look-up stands.
const WHERE: [&str; 6] = [
    "by reopening",
    "by deletion",
    "in a post check",
    "in a body of its own",
    "with label and path",
    "in a deletion in a body of its own",
];

/// What one that is taken may have.
const TAKEN: [&str; 6] = [
    "in an overlay",
    "where the label's own path is short",
    "every component short, of several",
    "a component with @ beside one without",
    "a name with more than one @",
    "a path of 20 components or more",
];

const SILENT: &str = "29 silent in an overlay";
const KEPT: &str = "29 silent in an overlay, by reopening";
const EXACT_DELETION: &str = "deletion by name where a short path would match";

fn taken(what: &str) -> String {
    format!("taken short {what}")
}

fn several(what: &str) -> String {
    format!("29 {what}")
}

fn at_level(what: &str, level: u32) -> String {
    format!("{what} at level {level}")
}

/// What is to come up.
pub fn wanted() -> Coverage {
    let mut wanted: Vec<String> = [SILENT, KEPT, EXACT_DELETION].map(str::to_owned).to_vec();
    wanted.extend(WHERE.into_iter().flat_map(|what| [taken(what), several(what)]));
    wanted.extend(TAKEN.map(taken));
    wanted.extend(BESIDE.map(str::to_owned));
    for what in ["taken short", "29", "compared with the Rust", "29 of post checks"] {
        wanted.extend([1, 2].map(|level| at_level(what, level)));
    }
    Coverage::wanting(wanted.into_iter())
}

/// Notes what a description shows.
pub fn note(judged: &Judged, coverage: &mut Coverage) {
    let level = judged.case.records.level;
    let mut seen = |what: &str, holds: bool| coverage.add_if(at_level(what, level), holds);
    let has = |found: fn(&Found) -> bool| judged.by_01.looks.iter().any(|look| found(&look.found));
    seen("taken short", has(|found| matches!(found, Found::Short(_))));
    seen("29", has(|found| *found == Found::Several));
    seen("29 of post checks", judged.answer.post.iter().any(|found| found.code == SEVERAL));
    seen("compared with the Rust", !judged.is_aside());
    let deletions = judged.by_01.events.get(EXACT_DELETION);
    coverage.add(EXACT_DELETION.to_owned(), deletions.copied().unwrap_or_default());
    for look in &judged.by_01.looks {
        note_look(look, coverage);
    }
}

fn note_look(look: &Look, coverage: &mut Coverage) {
    let place = [
        look.by == By::Reopening,
        look.by == By::Deletion,
        look.by == By::PostCheck,
        look.own_body,
        look.front.is_some(),
        look.own_body && look.by == By::Deletion,
    ];
    match &look.found {
        Found::Short(full) => {
            for (what, holds) in WHERE.into_iter().zip(place) {
                coverage.add_if(taken(what), holds);
            }
            note_taken(look, full, coverage);
        }
        Found::Several if look.overlay => {
            coverage.add(SILENT.to_owned(), 1);
            coverage.add_if(KEPT.to_owned(), look.by == By::Reopening);
        }
        Found::Several => {
            for (what, holds) in WHERE.into_iter().zip(place) {
                coverage.add_if(several(what), holds);
            }
        }
        _ => {}
    }
    for (what, holds) in BESIDE.into_iter().zip(look.beside) {
        coverage.add_if(what.to_owned(), holds);
    }
}

/// Notes a path that was taken short.
fn note_taken(look: &Look, full: &[u8], coverage: &mut Coverage) {
    let (written, full_ones) = (components(&look.path), components(full));
    let short = |(written, full): (&&[u8], &&[u8])| written != full;
    let pairs = || written.iter().zip(&full_ones);
    let has_at = |component: &&[u8]| component.contains(&b'@');
    let holds = [
        look.overlay,
        look.front.as_ref().is_some_and(|front| !under(full, front)),
        written.len() > 1 && pairs().all(short),
        written.iter().any(has_at),
        full_ones.iter().any(|name| name.iter().filter(|byte| **byte == b'@').count() > 1),
        full_ones.len() >= 20,
    ];
    for (what, holds) in TAKEN.into_iter().zip(holds) {
        coverage.add_if(taken(what), holds);
    }
}
