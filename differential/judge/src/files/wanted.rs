//! What is to come up among files, and what did.

use crate::{
    answer::{Answer, Definition},
    by_02::files::{Files, MOST_FILES, Pair},
    coverage::Coverage,
    records::{SIGNED, UNSIGNED},
    tree::Span,
    trees::Judged,
};

/// Where a start lies beside the start of a span.
const BESIDE: [&str; 3] = ["at", "one before", "one behind"];

/// The spans of a record.
const SPANS: [&str; 2] = ["a span's start", "a name span's start"];

const BEHIND: &str = "a start behind every span";
const LARGEST: &str = "2^32 - 1 as a start";
const DIFFERENT: &str = "words 13 and 14 different";
const LAST: &str = "file 15";
const OVER: &str = "a span over several files";
const TWICE: &str = "code 20 with both words other than 0 and different";
const ONCE: [&str; 6] = [BEHIND, LARGEST, DIFFERENT, LAST, OVER, TWICE];

/// What has both words, beside each kind of definition; and what has word 13.
const IN_BODY: &str = "a definition in a body";
const EXTENSION: &str = "an extension";
const BINDING: &str = "a binding";
const LOWERING: &str = "a diagnostic of lowering";

/// The codes of the post checks.
const POST: [u32; 7] = [3, 4, 20, 21, 22, 23, 29];

fn of_length(length: usize) -> String {
    format!("a list of {length}")
}

fn lies(beside: &str, span: &str) -> String {
    format!("a start {beside} {span}")
}

fn definition(kind: u32) -> String {
    format!("a definition of kind {kind}")
}

fn of_post(code: u32) -> String {
    format!("a post check's code {code}")
}

/// A word of a record that is not 0.
fn holds(word: u32, what: &str) -> String {
    format!("word {word} of {what} other than 0")
}

fn told(what: &str) -> String {
    format!("more than one file {what}")
}

/// The sorts of descriptions.
fn sort(judged: &Judged) -> String {
    let level = judged.case.records.level;
    if judged.is_aside() { "with a short path".to_owned() } else { format!("at level {level}") }
}

/// What is to come up.
pub fn wanted() -> Coverage {
    let mut wanted: Vec<String> = (1..=MOST_FILES).map(of_length).collect();
    wanted.extend(SPANS.iter().flat_map(|span| BESIDE.map(|beside| lies(beside, span))));
    wanted.extend(ONCE.map(str::to_owned));
    let both = (1..=6).map(definition).chain([IN_BODY, EXTENSION].map(str::to_owned));
    wanted.extend(both.flat_map(|what| [13, 14].map(|word| holds(word, &what))));
    let first = [BINDING, LOWERING].map(str::to_owned).into_iter().chain(POST.map(of_post));
    wanted.extend(first.map(|what| holds(13, &what)));
    wanted.extend([SIGNED, UNSIGNED].map(|level| told(&format!("at level {level}"))));
    wanted.push(told("with a short path"));
    Coverage::wanting(wanted.into_iter())
}

/// Notes what a description with its list shows.
pub fn note(judged: &Judged, coverage: &mut Coverage) {
    let (starts, answer) = (&judged.case.records.starts[..], &judged.answer);
    coverage.add(of_length(starts.len()), 1);
    coverage.add_if(told(&sort(judged)), starts.len() > 1);
    let [spans, names] = spans(answer);
    note_starts(starts, &spans, SPANS[0], coverage);
    note_starts(starts, &names, SPANS[1], coverage);
    let last = starts.last().copied().unwrap_or_default();
    let behind = spans.iter().chain(&names).all(|span| span.1 < last);
    coverage.add_if(BEHIND.to_owned(), behind && !spans.is_empty());
    coverage.add_if(LARGEST.to_owned(), last == u32::MAX);
    let over = |span: &Span| starts.iter().any(|start| span.0 < *start && *start < span.1);
    coverage.add_if(OVER.to_owned(), spans.iter().any(over));
    note_words(answer, &Files::of(answer, starts), coverage);
}

/// All definitions of a log, those in bodies too.
fn definitions(answer: &Answer) -> impl Iterator<Item = &Definition> {
    answer.definitions.iter().chain(answer.extensions.iter().flat_map(|made| &made.body))
}

/// The spans and the name spans of a log.
pub fn spans(answer: &Answer) -> [Vec<Span>; 2] {
    let found = || answer.lowering.iter().chain(&answer.post);
    let of_definitions = definitions(answer).map(|made| (made.span, made.name_span));
    let of_extensions = answer.extensions.iter().map(|made| (made.span, made.name_span));
    let (mut spans, mut names): (Vec<Span>, Vec<Span>) = of_definitions.chain(of_extensions).unzip();
    spans.extend(answer.bindings.iter().map(|made| made.span).chain(found().map(|found| found.span)));
    names.extend(found().filter(|found| found.code == 20).map(|found| found.earlier));
    [spans, names]
}

/// Notes how the starts of files, but for the first, lie to those of spans.
fn note_starts(starts: &[u32], spans: &[Span], of: &str, coverage: &mut Coverage) {
    for start in starts.iter().skip(1).map(|start| u64::from(*start)) {
        let near = |at: u64, by: u64| spans.iter().any(|span| u64::from(span.0) + by == at);
        let holds = [near(start, 0), near(start + 1, 0), near(start, 1)];
        for (beside, holds) in BESIDE.into_iter().zip(holds) {
            coverage.add_if(lies(beside, of), holds);
        }
    }
}

/// Notes which records have words other than 0.
fn note_words(answer: &Answer, files: &Files, coverage: &mut Coverage) {
    let mut noted = |what: &str, pair: &Pair| {
        for (word, file) in [13, 14].into_iter().zip(pair) {
            coverage.add_if(holds(word, what), *file != 0);
        }
    };
    for (made, pair) in answer.definitions.iter().zip(&files.definitions) {
        noted(&definition(made.kind), pair);
    }
    for (pair, body) in &files.extensions {
        noted(EXTENSION, pair);
        body.iter().for_each(|pair| noted(IN_BODY, pair));
    }
    let first = |pair: &Pair| [pair[0], 0];
    files.bindings.iter().for_each(|pair| noted(BINDING, pair));
    files.lowering.iter().for_each(|pair| noted(LOWERING, pair));
    for (found, pair) in answer.post.iter().zip(&files.post) {
        noted(&of_post(found.code), &first(pair));
    }
    let codes = answer.post.iter().zip(&files.post).filter(|(found, _)| found.code == 20);
    let twice = |pair: &Pair| pair[0] != 0 && pair[1] != 0 && pair[0] != pair[1];
    coverage.add_if(TWICE.to_owned(), codes.map(|(_, pair)| pair).any(twice));
    let all = files.in_order();
    let both = files.definitions.iter().any(|pair| pair[0] != pair[1]);
    coverage.add_if(DIFFERENT.to_owned(), both);
    coverage.add_if(LAST.to_owned(), all.iter().flatten().any(|file| *file as usize == MOST_FILES - 1));
}
