//! Which file a span came from: 02, request 3.

use definition_log::{Directive, Files, InputKind, Log, OwnedDescription, OwnedLog, Tree, sample};

// Parts of trees, at their places.

fn of(kind: InputKind, at: (u32, u32)) -> Tree {
    Tree::of(kind).at(at.0..at.1)
}

fn name(text: &str, at: (u32, u32)) -> Tree {
    Tree::name(text).at(at.0..at.1)
}

fn label(text: &str, at: (u32, u32)) -> Tree {
    of(InputKind::Label, at).with([Tree::name(text)])
}

fn node(at: (u32, u32), parts: impl Into<Vec<Tree>>, items: impl Into<Vec<Tree>>) -> Tree {
    Tree::node(parts, items).at(at.0..at.1)
}

fn property(at: (u32, u32), name: Tree, values: impl Into<Vec<Tree>>) -> Tree {
    Tree::property([name], values).at(at.0..at.1)
}

fn version() -> Tree {
    of(InputKind::Directive(Directive::Version), (0, 9))
}

fn plugin() -> Tree {
    of(InputKind::Directive(Directive::Plugin), (10, 20))
}

/// A root without a place.
fn root(items: impl Into<Vec<Tree>>) -> Tree {
    Tree::node([Tree::of(InputKind::Slash)], items)
}

/// These items, lowered as files that start at these places.
fn lowered(starts: &[u32], items: &[Tree]) -> OwnedLog {
    let files = Files::new(starts).unwrap();
    OwnedDescription::of(items).description().in_files(&files).lower().unwrap()
}

/// The files of all definitions: of the span and of the name.
fn definitions(log: Log) -> Vec<(usize, usize)> {
    log.definitions().map(|definition| (definition.file, definition.name_file)).collect()
}

/// Code, file and earlier binding's file of all diagnostics, those of the post checks last.
fn diagnostics(log: Log) -> Vec<(u32, usize, Option<usize>)> {
    let all = log.diagnostics().chain(log.post_diagnostics());
    all.map(|diagnostic| (diagnostic.code, diagnostic.file, diagnostic.earlier_file)).collect()
}

#[test]
fn the_example_of_01_from_three_files() {
    let b = node((14, 23), [label("a", (14, 16)), name("b", (17, 18))], []);
    let root = node((10, 26), [of(InputKind::Slash, (10, 11))], [b]);
    let made = lowered(&[0, 11, 17], &[version(), root]);
    assert_eq!(definitions(made.log()), [(0, 0), (0, 0), (1, 2)]);
    assert_eq!(made.log().bindings().map(|binding| binding.file).collect::<Vec<_>>(), [1]);
}

#[test]
fn a_start_belongs_to_its_file_and_the_end_does_not_count() {
    let of_start = |span: (u32, u32)| {
        let made = lowered(&[0, 5], &[version(), root([property(span, name("p", span), [])])]);
        definitions(made.log())[2]
    };
    assert_eq!(of_start((4, 4)), (0, 0), "before");
    assert_eq!(of_start((4, 5)), (0, 0), "up to it");
    assert_eq!(of_start((5, 5)), (1, 1), "at it");
    assert_eq!(of_start((5, 9)), (1, 1));
    assert_eq!(of_start((6, 9)), (1, 1), "behind it");
    assert_eq!(of_start((4, 9)), (0, 0), "over both files");
    assert_eq!(of_start((u32::MAX, u32::MAX)), (1, 1));
}

#[test]
fn a_name_may_stand_in_another_file_than_its_definition() {
    let a = node((4, 30), [name("a", (12, 13))], [property((14, 29), name("p", (25, 26)), [])]);
    let made = lowered(&[0, 10, 20], &[version(), root([a])]);
    assert_eq!(definitions(made.log()), [(0, 0), (0, 0), (0, 1), (1, 2)]);
}

#[test]
fn a_duplicate_label_has_both_files() {
    let a = node((20, 30), [label("l", (20, 21)), name("a", (22, 23))], []);
    let b = node((31, 40), [label("l", (31, 32)), name("b", (33, 34))], []);
    let made = lowered(&[0, 20, 31], &[version(), root([a, b])]);
    let log = made.log();
    assert_eq!(diagnostics(log), [(20, 2, Some(1))]);
    assert_eq!(log.bindings().map(|binding| binding.file).collect::<Vec<_>>(), [1, 2]);
    let duplicate = log.post_diagnostics().next().unwrap();
    let files = Files::new(&[0, 20, 31]).unwrap();
    assert_eq!(
        duplicate.located(&files),
        "file 2, 0-1: duplicate label: l (code 20), bound first in file 1, 0-1"
    );
    assert_eq!(
        duplicate.located(&files.named(["racks.dts", "bays.dts", "shelf.dts"])),
        "shelf.dts, 0-1: duplicate label: l (code 20), bound first in bays.dts, 0-1"
    );
    let both = Files::new(&[0, 20]).unwrap();
    assert_eq!(
        duplicate.located(&both),
        "file 1, 11-12: duplicate label: l (code 20), bound first in file 1, 0-1"
    );
}

#[test]
fn extensions_and_their_bodies_have_files() {
    let reference = of(InputKind::Reference, (50, 51)).text("x");
    let body = [
        property((53, 57), name("p", (52, 53)), []),
        node((58, 59), [label("l", (58, 58)), name("b", (59, 59))], []),
    ];
    let made = lowered(&[0, 51, 53, 59], &[version(), plugin(), node((50, 60), [reference], body)]);
    let log = made.log();
    let extension = log.extensions().next().unwrap();
    assert_eq!((extension.file, extension.name_file), (0, 0));
    let body: Vec<_> =
        log.body(extension.record).map(|definition| (definition.file, definition.name_file)).collect();
    assert_eq!(body, [(2, 1), (2, 3)]);
    let behind = lowered(
        &[0, 20, 50, 51],
        &[version(), plugin(), node((20, 60), [of(InputKind::Reference, (50, 51)).text("x")], [])],
    );
    let extension = behind.log().extensions().next().unwrap();
    assert_eq!((extension.file, extension.name_file), (1, 2));
}

#[test]
fn post_checks_point_at_names() {
    let lost = Tree::of(InputKind::Reference).text("lost").at(70..75);
    let stock = property((40, 80), name("stock", (50, 55)), [lost]);
    let made = lowered(&[0, 45, 60], &[version(), root([stock])]);
    assert_eq!(diagnostics(made.log()), [(3, 1, None)], "the property's name, not the reference");
    assert_eq!(definitions(made.log())[2], (0, 1));

    let early = node((10, 26), [of(InputKind::Slash, (12, 13))], []);
    let made = lowered(&[0, 12], &[early]);
    assert_eq!(diagnostics(made.log()), [(23, 1, None)], "the definition's name");
    assert_eq!(definitions(made.log()), [(0, 1)]);
}

#[test]
fn lowering_s_own_diagnostics_have_files() {
    let reference = |at| of(InputKind::Reference, at).text("lost");
    let items =
        [version(), node((19, 30), [reference((19, 24))], []), node((31, 40), [reference((33, 38))], [])];
    let made = lowered(&[0, 20, 32], &items);
    assert_eq!(diagnostics(made.log()), [(3, 0, None), (3, 2, None)]);
    let files = Files::new(&[0, 20, 32]).unwrap().named(["base.dts"]);
    let told: Vec<String> = made.log().diagnostics().map(|diagnostic| diagnostic.located(&files)).collect();
    assert_eq!(
        told,
        [
            "base.dts, 19 to file 1, 4: label not found: lost (code 3)",
            "file 2, 1-6: label not found: lost (code 3)"
        ]
    );
}

#[test]
fn there_are_up_to_16_files() {
    let places: Vec<u32> = (0..16).map(|file| 10 * file).collect();
    let properties: Vec<Tree> = places
        .iter()
        .enumerate()
        .map(|(number, &at)| property((at, at + 9), name(&format!("p{number}"), (at + 9, at + 10)), []))
        .collect();
    let made = lowered(&places, &[version(), root(properties)]);
    let expected: Vec<_> = (0..16).map(|file| (file, file)).collect();
    assert_eq!(definitions(made.log())[2..], expected);
    assert!(Files::new(&[places.as_slice(), &[160]].concat()).is_err());
}

#[test]
fn starts_may_lie_behind_everything() {
    let files = Files::new(&[0, 63, 1_000_000, u32::MAX]).unwrap();
    let made = sample::description().in_files(&files).lower().unwrap();
    assert_eq!(definitions(made.log()), [(0, 0); 8]);
}

#[test]
fn one_file_is_what_there_is_without_files() {
    let without = sample::description().lower().unwrap();
    let one = sample::description().in_files(&Files::one()).lower().unwrap();
    assert_eq!(one.into_parts(), without.into_parts());
    assert_eq!(definitions(sample::log()), [(0, 0); 8]);
}

/// A description with records of most kinds, all with spans.
fn rich() -> OwnedDescription {
    let number = of(InputKind::Number, (41, 42)).text("7");
    let cells =
        of(InputKind::CellList, (40, 49)).with([number, of(InputKind::Reference, (43, 48)).text("lost")]);
    let values =
        [of(InputKind::String, (50, 54)).text("on"), of(InputKind::Bytestring, (55, 59)).text("[0a]"), cells];
    let p = property((35, 60), name("p", (35, 36)), values);
    let a = node((30, 61), [label("l", (30, 32)), name("a", (33, 34))], [p]);
    let b = node((62, 70), [label("l", (62, 64)), name("b", (65, 66))], []);
    let gone = of(InputKind::Directive(Directive::DeleteNode), (71, 79)).with([name("b", (77, 78))]);
    let slash = of(InputKind::Slash, (22, 23));
    let extension = node((90, 99), [of(InputKind::Reference, (90, 92)).text("x")], []);
    let c = node((80, 88), [label("l", (80, 82)), name("c", (83, 84))], []);
    let macros = of(InputKind::Preprocessor, (100, 105));
    OwnedDescription::of(&[version(), plugin(), node((22, 89), [slash], [a, b, gone, c]), extension, macros])
}

/// What words 13 and 14 of a record must be.
fn files_of(words: &[u32], files: &Files) -> (u32, u32) {
    let file = |start| u32::try_from(files.locate(start).0).unwrap();
    match words[0] {
        1..=6 | 13 => (file(words[9]), file(words[11])),
        14 => (file(words[9]), 0),
        15 if words[7] == 20 => (file(words[9]), file(words[11])),
        15 => (file(words[9]), 0),
        _ => (0, 0),
    }
}

#[test]
fn every_word_is_as_of_one_file_but_the_two_of_files() {
    let described = rich();
    let plain = described.description().lower().unwrap().into_parts();
    let files = Files::new(&[0, 15, 31, 34, 41, 56, 63, 78, 81, 91]).unwrap();
    let made = described.description().in_files(&files).lower().unwrap().into_parts();
    assert_eq!(made.1, plain.1);
    let mut kinds = [0; 16];
    for (number, (words, before)) in made.0.chunks(16).zip(plain.0.chunks(16)).enumerate() {
        assert_eq!(words[..13], before[..13], "record {number}");
        assert_eq!(before[13..], [0, 0, 0], "record {number}");
        if number == 0 {
            assert_eq!(words[13..], [0, 0, 0], "record 0");
            continue;
        }
        let (file, name_file) = files_of(words, &files);
        assert_eq!(words[13..], [file, name_file, 0], "record {number} of kind {}", words[0]);
        kinds[words[0] as usize] += 1;
    }
    assert_eq!(kinds[1..], [4, 1, 1, 0, 1, 1, 3, 1, 1, 1, 1, 2, 1, 2, 2]);
}

#[test]
fn the_sample_from_two_files() {
    let files = sample::files();
    let made = sample::description().in_files(&files).lower().unwrap();
    let told: Vec<String> =
        made.log().definitions().map(|definition| files.located(&definition.span)).collect();
    assert_eq!(
        told,
        [
            "base.dts, 0-9",
            "base.dts, 10-26",
            "base.dts, 14-23",
            "depot.dts, 0-36",
            "depot.dts, 4-6",
            "depot.dts, 7-16",
            "depot.dts, 11-13",
            "depot.dts, 17-33"
        ]
    );
}

#[test]
fn buffers_that_grow_have_the_files_too() {
    let nodes: Vec<Tree> =
        (0..300).map(|at| node((at, at), [name(&format!("n{at}"), (at, at))], [])).collect();
    let made = lowered(&[0, 100, 200], &[version(), root(nodes)]);
    let expected: Vec<_> = (0..300).map(|at| (at / 100, at / 100)).collect();
    assert_eq!(definitions(made.log())[2..], expected);
}
