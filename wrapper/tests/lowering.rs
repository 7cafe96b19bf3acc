//! What a description is lowered to, and what is refused, with which number, and what is left then.

use definition_log::{
    Cell, Description, Directive, InputKind, Kind, Log, LowerError, OwnedDescription, Prefix, Target, Tree,
    Value, sample,
};

/// What the buffers hold before a call.
const UNTOUCHED: u32 = 77;
const UNTOUCHED_BYTE: u8 = 77;

// Parts of trees.

fn of(kind: InputKind) -> Tree {
    Tree::of(kind)
}

fn label(text: &str) -> Tree {
    of(InputKind::Label).with([Tree::name(text)])
}

fn root(items: impl Into<Vec<Tree>>) -> Tree {
    Tree::node([of(InputKind::Slash)], items)
}

fn node(name: &str, items: impl Into<Vec<Tree>>) -> Tree {
    Tree::node([Tree::name(name)], items)
}

fn property(name: &str, values: impl Into<Vec<Tree>>) -> Tree {
    Tree::property([Tree::name(name)], values)
}

fn directive(directive: Directive, parts: impl Into<Vec<Tree>>) -> Tree {
    of(InputKind::Directive(directive)).with(parts)
}

/// The example of 01: a version directive, and a root with the node b, labelled a, in it.
fn example() -> OwnedDescription {
    let label = label("a").at(14..16);
    let b = Tree::node([label, Tree::name("b").at(17..18)], []).at(14..23);
    let root = Tree::node([of(InputKind::Slash).at(10..11)], [b]).at(10..26);
    OwnedDescription::of(&[directive(Directive::Version, []).at(0..9), root])
}

/// A log as 01's listing program prints it.
fn listing(log: Log) -> String {
    let text = String::from_utf8_lossy;
    let mut lines = String::new();
    for definition in log.definitions() {
        let letter = match definition.kind {
            Kind::Node => 'N',
            Kind::Property => 'P',
            Kind::DeletedNode => 'X',
            Kind::DeletedProperty => 'Y',
            Kind::Version => 'V',
            Kind::Plugin => 'G',
        };
        let path = if definition.path.is_empty() { "-".into() } else { text(definition.path) };
        let (span, name) = (definition.span, definition.name_span);
        lines += &format!("D {letter} {path} {}-{} {}-{}\n", span.start, span.end, name.start, name.end);
        for label in log.labels(definition.record) {
            lines += &format!("l {}\n", text(label));
        }
    }
    for binding in log.bindings() {
        let span = binding.span;
        lines += &format!("B {} {} {}-{}\n", text(binding.label), text(binding.path), span.start, span.end);
    }
    for diagnostic in log.diagnostics().chain(log.post_diagnostics()) {
        lines += &format!("M {} {}-{}\n", diagnostic.code, diagnostic.span.start, diagnostic.span.end);
    }
    lines + ".\n"
}

/// The listing of what these items are lowered to.
fn listed(items: &[Tree]) -> String {
    listing(OwnedDescription::of(items).description().lower().unwrap().log())
}

/// Why a description is refused; no word and no byte of the buffers is written then.
fn refusal(words: &[u32], text: &[u8]) -> Option<LowerError> {
    let (mut out, mut bytes) = (vec![UNTOUCHED; 2048], vec![UNTOUCHED_BYTE; 2048]);
    let description = Description::new(words, text);
    let refused = description.lower_into(&mut out, &mut bytes).err();
    if refused.is_some() {
        assert_eq!(description.lower().err(), refused);
        assert!(out.iter().all(|word| *word == UNTOUCHED));
        assert!(bytes.iter().all(|byte| *byte == UNTOUCHED_BYTE));
    }
    refused
}

/// Why the sample is refused with some words changed: record, word, value.
fn refused_with(changes: &[(usize, usize, u32)]) -> Option<LowerError> {
    let mut words = sample::description().words().to_vec();
    for &(record, word, value) in changes {
        words[record * 8 + word] = value;
    }
    refusal(&words, sample::description().text())
}

/// The same of one word.
fn refused_at(record: usize, word: usize, value: u32) -> Option<LowerError> {
    refused_with(&[(record, word, value)])
}

#[test]
fn the_example_of_01() {
    let listed = "D V - 0-9 0-9\nD N / 10-26 10-11\nD N /b 14-23 17-18\nl a\nB a /b 14-16\n.\n";
    assert_eq!(listing(example().description().lower().unwrap().log()), listed);
}

#[test]
fn the_sample_is_lowered_to_its_log() {
    let lowered = sample::description().lower().unwrap();
    assert_eq!(listing(lowered.log()), listing(sample::log()));
    assert_eq!(lowered.log().records_used(), sample::log().records_used());
    assert_eq!(lowered.log().bytes_used(), sample::log().bytes_used());
}

#[test]
fn a_new_node_that_is_deleted_again_leaves_what_was_live() {
    let version = || directive(Directive::Version, []);
    let bay = node("bay", [property("ink", [])]);
    let gone = directive(Directive::DeleteNode, [Tree::name("bay")]);
    let with = OwnedDescription::of(&[version(), root([node("b", [bay, gone])])]);
    let without = OwnedDescription::of(&[version(), root([node("b", [])])]);
    let live = |description: &OwnedDescription| {
        let lowered = description.description().lower().unwrap();
        let log = lowered.log();
        let list = log.iter_live_defs_under("").unwrap();
        list.iter().map(|&record| log.definition(record).unwrap().path.to_vec()).collect::<Vec<_>>()
    };
    assert_eq!(live(&with), live(&without));
    assert_eq!(live(&with), [&b"/b"[..], b"/", b""]);
}

#[test]
fn deleting_a_node_removes_its_labels_bindings() {
    let labelled = |name: &str| Tree::node([label(name), Tree::name(name)], []);
    let gone = directive(Directive::DeleteNode, [of(InputKind::Reference).text("a")]);
    let listed = listed(&[directive(Directive::Version, []), root([labelled("a"), labelled("b"), gone])]);
    assert!(listed.contains("D X /a 0-0 0-0\n"));
    assert!(listed.ends_with("l b\nD X /a 0-0 0-0\nB b /b 0-0\n.\n"), "{listed}");
}

#[test]
fn values_are_lowered() {
    let number = |text: &str| of(InputKind::Number).text(text);
    let minus = of(InputKind::Prefix(Prefix::Minus)).with([number("2")]);
    let values = [
        of(InputKind::String).text("on"),
        of(InputKind::CellList).text("8").with([
            number("0x10"),
            number("256"),
            of(InputKind::Expression).with([minus]),
            of(InputKind::Character('A')),
        ]),
        of(InputKind::CellList).text("64").with([number("0xffffffffffffffff")]),
        of(InputKind::Bytestring).text("[0a Ff]"),
        of(InputKind::RawReference).text("&{/}"),
        of(InputKind::CellList)
            .with([of(InputKind::RawReference).text("&{a/b}"), of(InputKind::Reference).text("a")]),
    ];
    let described = OwnedDescription::of(&[directive(Directive::Version, []), root([property("p", values)])]);
    let lowered = described.description().lower().unwrap();
    let log = lowered.log();
    let p = log.definitions().last().unwrap();
    assert_eq!((p.kind, p.path), (Kind::Property, &b"/p"[..]));

    let values: Vec<Value> = log.values(p.record).collect();
    let lists: Vec<(u32, Vec<Cell>)> = values
        .iter()
        .filter_map(|value| match value {
            Value::CellList { record, width } => Some((*width, log.cells(*record).collect())),
            _ => None,
        })
        .collect();
    assert_eq!(values.len(), 6);
    assert_eq!(values[0], Value::String(b"on"));
    assert_eq!(values[3], Value::Bytestring(&[0x0a, 0xff]));
    assert_eq!(values[4], Value::Reference(Target::Path(b"/")));
    assert_eq!(lists.len(), 3);
    let small = vec![Cell::Number(16), Cell::Number(254), Cell::Number(65)];
    assert_eq!(lists[0], (8, small), "256 is dropped");
    assert_eq!(lists[1], (64, vec![Cell::Number(u64::MAX)]));
    let targets = [Target::LabelAndPath { label: b"a", path: b"b" }, Target::Label(b"a")];
    assert_eq!(lists[2], (32, targets.map(Cell::Reference).to_vec()));

    let reports: Vec<String> = log.diagnostics().map(|diagnostic| diagnostic.to_string()).collect();
    assert_eq!(reports, ["the number is too large (code 18)"]);
    let post: Vec<String> = log.post_diagnostics().map(|diagnostic| diagnostic.to_string()).collect();
    assert_eq!(post, ["label not found: a (code 3)"; 2]);
}

/// A node with a unit address.
fn addressed(name: &str, address: &str, items: impl Into<Vec<Tree>>) -> Tree {
    Tree::node([Tree::name(name), of(InputKind::UnitAddress).with([Tree::name(address)])], items)
}

/// 02, request 5: `/ { rack@0 { bay@1 { }; bayou@1 { }; }; };` and a reference that leaves out addresses.
fn rack(bays: &[&str], item: Tree) -> String {
    let bays = bays.iter().map(|address| addressed("bay", address, []));
    let bays: Vec<Tree> = bays.chain([addressed("bayou", "1", [])]).collect();
    listed(&[directive(Directive::Version, []), root([addressed("rack", "0", bays)]), item])
}

#[test]
fn a_path_may_leave_out_unit_addresses() {
    let short = || of(InputKind::RawReference).text("&{/rack/bay}");
    let reopened = Tree::node([short()], [property("drawer", [])]);
    let once = rack(&["1"], reopened.clone());
    assert!(once.ends_with("D N /rack@0/bay@1 0-0 0-0\nD P /rack@0/bay@1/drawer 0-0 0-0\n.\n"), "{once}");
    let deleted = rack(&["1"], directive(Directive::DeleteNode, [short()]));
    assert!(deleted.ends_with("D X /rack@0/bay@1 0-0 0-0\n.\n"), "{deleted}");
    let twice = rack(&["1", "2"], reopened);
    assert!(twice.ends_with("D N /rack@0/bayou@1 0-0 0-0\nM 29 0-0\n.\n"), "{twice}");
}

#[test]
fn a_path_that_may_mean_two_nodes_is_reported() {
    let bays = [addressed("bay", "1", []), addressed("bay", "2", [])];
    let bad = property(
        "bays",
        [of(InputKind::RawReference).text("&{/bay}"), of(InputKind::RawReference).text("&{/bay@2}")],
    );
    let described = OwnedDescription::of(&[
        directive(Directive::Version, []),
        root(bays.into_iter().chain([bad]).collect::<Vec<_>>()),
    ]);
    let lowered = described.description().lower().unwrap();
    let log = lowered.log();
    let post: Vec<String> = log.post_diagnostics().map(|diagnostic| diagnostic.to_string()).collect();
    assert_eq!(post, ["without its unit addresses the path may mean more than one node: /bay (code 29)"]);
    assert!(
        !log.contains_node("/bay").unwrap() && log.contains_node("/bay@1").unwrap(),
        "queries take full paths"
    );
}

/// 02, request 2: "010" is 8, "08" gives code 17, "0" is 0, in cells, expressions and widths.
#[test]
fn a_leading_zero_means_base_8() {
    let number = |text: &str| of(InputKind::Number).text(text);
    let expression = of(InputKind::Expression).with([number("010")]);
    let list =
        of(InputKind::CellList).text("010").with([number("010"), number("08"), number("0"), expression]);
    let no_list = of(InputKind::CellList).text("08");
    let described =
        OwnedDescription::of(&[directive(Directive::Version, []), root([property("p", [list, no_list])])]);
    let lowered = described.description().lower().unwrap();
    let log = lowered.log();
    let p = log.definitions().last().unwrap();
    let values: Vec<Value> = log.values(p.record).collect();
    let [Value::CellList { record, width: 8 }] = values[..] else { panic!("{values:?}") };
    let cells: Vec<Cell> = log.cells(record).collect();
    assert_eq!(cells, [8, 0, 8].map(Cell::Number));
    let codes: Vec<u32> = log.diagnostics().map(|diagnostic| diagnostic.code).collect();
    assert_eq!(codes, [17, 17]);
}

#[test]
fn extensions_keep_their_bodies() {
    let reference = of(InputKind::Reference).text("a").at(30..32);
    let node = Tree::node([reference], [property("p", []), node("b", [])]).at(30..50);
    let headers = [directive(Directive::Version, []), directive(Directive::Plugin, [])];
    let described = OwnedDescription::of(&[headers.as_slice(), &[node]].concat());
    let lowered = described.description().lower().unwrap();
    let log = lowered.log();
    let extensions: Vec<_> = log.extensions().collect();
    assert_eq!(extensions.len(), 1);
    assert_eq!(extensions[0].target, Some(Target::Label(b"a")));
    assert_eq!((extensions[0].span.clone(), extensions[0].name_span.clone()), (30..50, 30..32));
    let body: Vec<_> = log.body(extensions[0].record).map(|definition| definition.path).collect();
    assert_eq!(body, [b"/p", b"/b"]);
    assert_eq!(log.definitions().count(), 2, "the headers alone");
    assert_eq!(log.iter_live_defs_under("/").unwrap(), [], "a body is no part of the main log");
}

#[test]
fn a_duplicate_label_names_the_earlier_binding() {
    let labelled = |name: &str, at| Tree::node([label("l").at(at), Tree::name(name)], []);
    let items = [directive(Directive::Version, []), root([labelled("a", 20..22), labelled("b", 40..42)])];
    let lowered = OwnedDescription::of(&items).description().lower().unwrap();
    let post: Vec<_> = lowered.log().post_diagnostics().collect();
    assert_eq!(post.len(), 1);
    assert_eq!((post[0].code, post[0].text), (20, &b"l"[..]));
    assert_eq!((post[0].span.clone(), post[0].earlier.clone()), (40..42, Some(20..22)));
}

#[test]
fn number_1_wrong_sizes() {
    for words in [0, 1, 7, 9, 15, 8 * 2048 + 1, 8 * 2049] {
        let refused = refusal(&vec![0; words], b"");
        assert_eq!(refused, Some(LowerError::WrongSize { words, text: 0 }));
    }
    let long = vec![b'x'; 65_537];
    assert_eq!(refusal(&[0; 8], &long), Some(LowerError::WrongSize { words: 8, text: 65_537 }));
    assert_eq!(refusal(&[0; 8 * 2048], &long[1..]), None, "both are as large as may be");
}

#[test]
fn number_2_bad_links() {
    let bad = |record| Some(LowerError::BadLink { record });
    for word in [1, 2, 5] {
        assert_eq!(refused_at(8, word, 8), bad(8), "word {word} leads to its own record");
        assert_eq!(refused_at(8, word, 7), bad(8), "word {word} leads down");
        assert_eq!(refused_at(8, word, 18), bad(8), "word {word} leads past the end");
        assert_eq!(refused_at(8, word, u32::MAX), bad(8));
    }
    assert_eq!(refused_at(7, 1, 8), bad(7), "to what record 2 leads to");
    assert_eq!(refused_at(12, 2, 14), bad(12), "to its own body");
    assert_eq!(refused_at(6, 5, 6), Some(LowerError::UnfitRecord { record: 6 }), "W of a name is no link");
}

#[test]
fn number_3_texts_past_the_end() {
    let bad = |record| Some(LowerError::BadText { record });
    assert_eq!(refused_at(17, 4, 5), None, "as far as the end");
    assert_eq!(refused_at(17, 4, 6), bad(17));
    assert_eq!(refused_at(3, 3, 63), None, "an empty text at the end");
    assert_eq!(refused_at(3, 3, 64), bad(3), "an empty text behind the end");
    assert_eq!(refused_with(&[(9, 3, u32::MAX), (9, 4, u32::MAX)]), bad(9));
}

#[test]
fn number_4_unfit_records() {
    let bad = |record| Some(LowerError::UnfitRecord { record });
    for word in [0, 3, 4, 5, 6, 7] {
        assert_eq!(refused_at(0, word, 1), bad(0), "word {word} of record 0");
    }
    assert_eq!(refused_with(&[(2, 1, 0), (0, 1, 8)]), bad(0), "the next of record 0");
    assert_eq!(refused_at(11, 0, 7), bad(11), "a label among a property's parts");
    assert_eq!(refused_at(3, 0, 1), bad(3), "a node among a node's parts");
    assert_eq!(refused_at(3, 0, 0), bad(3));
    assert_eq!(refused_at(3, 0, 21), bad(3));
    assert_eq!(refused_at(16, 5, 7), bad(16), "a directive of no sort");
    assert_eq!(refused_at(1, 5, 0), bad(1));
    assert_eq!(refused_at(4, 7, 13), bad(4), "a span that ends before its start");
    assert_eq!(refused_with(&[(5, 2, 0), (7, 2, 0), (3, 2, 6)]), bad(3), "a child of a slash");
    let character = |w| {
        let list = of(InputKind::CellList).with([of(InputKind::Character('a'))]);
        let described = OwnedDescription::of(&[root([property("p", [list])])]);
        let mut words = described.description().words().to_vec();
        words[6 * 8 + 5] = w;
        refusal(&words, described.description().text())
    };
    assert_eq!((character(0xd7ff), character(0xe000), character(0x10_ffff)), (None, None, None));
    assert_eq!((character(0xd800), character(0xdfff), character(0x11_0000)), (bad(6), bad(6), bad(6)));
}

#[test]
fn number_5_bad_names() {
    let bad = |record| Some(LowerError::BadName { record });
    assert_eq!(refused_at(6, 4, 0), bad(6), "an empty name");
    assert_eq!(refused_with(&[(13, 3, 44), (13, 4, 2)]), bad(13), "a slash in it");
    let of_reference = |kind, text: &str| {
        let described = OwnedDescription::of(&[Tree::node([of(kind).text(text)], [])]);
        refusal(described.description().words(), described.description().text())
    };
    assert_eq!(of_reference(InputKind::Reference, "a/b"), bad(2));
    assert_eq!(of_reference(InputKind::Reference, ""), None, "a name that is missing");
    assert_eq!(of_reference(InputKind::RawReference, "&{a/b}"), None);
}

#[test]
fn number_6_too_deep() {
    let nested = |deep| {
        let top = (1..deep).fold(Tree::node([], []), |inner, _| Tree::node([], [inner]));
        let described = OwnedDescription::of(&[top]);
        refusal(described.description().words(), described.description().text())
    };
    assert_eq!(nested(64), None);
    assert_eq!(nested(65), Some(LowerError::TooDeep { record: 65 }));
    assert_eq!(nested(70), Some(LowerError::TooDeep { record: 65 }), "the first");
}

#[test]
fn number_7_buffers_one_short() {
    let description = sample::description();
    let lower = |words: usize, room: usize| {
        let (mut out, mut bytes) = (vec![UNTOUCHED; words], vec![UNTOUCHED_BYTE; room]);
        let refused = description.lower_into(&mut out, &mut bytes).err();
        if refused.is_some() {
            assert!(out.iter().all(|word| *word == 0) && bytes.iter().all(|byte| *byte == 0));
        }
        refused
    };
    assert_eq!(lower(11 * 16, 18), None);
    assert_eq!(lower(11 * 16 - 1, 18), Some(LowerError::NoRoom { records: 10, bytes: 18 }));
    assert_eq!(lower(11 * 16, 17), Some(LowerError::NoRoom { records: 11, bytes: 17 }));
    assert_eq!(lower(0, 0), Some(LowerError::NoRoom { records: 0, bytes: 0 }));
    assert_eq!(lower(15, 1000), Some(LowerError::NoRoom { records: 0, bytes: 1000 }), "not even record 0");
}

#[test]
fn number_7_no_room_anywhere() {
    // Properties with a name of 60,000 bytes, all in one place of the text.
    let properties = |count: u32| {
        let mut words = vec![0, 0, 1, 0, 0, 0, 0, 0, 1, 0, 2, 0, 0, 3, 0, 0, 10, 0, 0, 0, 0, 0, 0, 0];
        for number in 0..count {
            let record = 3 + 2 * number;
            let next = if number + 1 < count { record + 2 } else { 0 };
            words.extend([2, next, record + 1, 0, 0, 0, 0, 0, 5, 0, 0, 0, 60_000, 0, 0, 0]);
        }
        words
    };
    let text = vec![b'n'; 60_000];
    // 1 for the root, 60,001 for each property.
    let fits = Description::new(&properties(279), &text).lower().unwrap();
    assert_eq!(fits.log().bytes_used(), 1 + 279 * 60_001);
    let refused = Description::new(&properties(280), &text).lower().unwrap_err();
    assert_eq!(refused, LowerError::NoRoom { records: 65_536, bytes: 1 << 24 });
}

#[test]
fn causes_are_tried_in_order() {
    // A fault of each of numbers 2 to 5, the later the lower its record.
    let faults = [(13, 1, 3), (11, 3, 64), (9, 0, 0), (6, 4, 0)];
    let number = |from: usize| refused_with(&faults[from..]).map(LowerError::number);
    assert_eq!([number(0), number(1), number(2), number(3)], [Some(2), Some(3), Some(4), Some(5)]);
    assert_eq!(number(4), None);
    assert_eq!(refused_with(&[(15, 4, 64), (11, 3, 64)]), Some(LowerError::BadText { record: 11 }));
}

#[test]
fn what_buffers_held_does_not_matter() {
    let (mut out, mut bytes) = (vec![UNTOUCHED; 12 * 16 + 5], vec![UNTOUCHED_BYTE; 30]);
    let log = sample::description().lower_into(&mut out, &mut bytes).unwrap();
    assert_eq!(listing(log), listing(sample::log()));
    assert_eq!(log.words().len(), 12 * 16, "whole records, as queries ask");
    assert_eq!(log.history("/c/q").unwrap().len(), 2);
    assert_eq!(out[12 * 16..], [0; 5]);
    assert_eq!(out.iter().filter(|word| **word == UNTOUCHED).count(), 0);
    assert_eq!(bytes.iter().filter(|byte| **byte != 0).count(), 18);
}

#[test]
fn large_descriptions_are_lowered() {
    // 400 nodes, each with a label and a long name: the log's texts are longer than the description's.
    let name = |number| format!("{number:0>60}");
    let nodes: Vec<Tree> =
        (0..400).map(|number| Tree::node([label(&name(number)), Tree::name(name(number))], [])).collect();
    let described = OwnedDescription::of(&[directive(Directive::Version, []), root(nodes)]);
    let lowered = described.description().lower().unwrap();
    assert_eq!(lowered.log().bindings().count(), 400);
    assert_eq!(lowered.log().definitions().count(), 402);
    assert_eq!(lowered.log().diagnostics().count() + lowered.log().post_diagnostics().count(), 0);
}
