//! What is answered.

use definition_log::{Log, QueryError, sample};

/// The kinds that the logs here have.
const NODE: u32 = 1;
const PROPERTY: u32 = 2;
const DELETED_NODE: u32 = 3;
const DELETED_PROPERTY: u32 = 4;

/// The words and bytes of a log of these definitions, in this order, from record 1 on.
fn log_of(definitions: &[(u32, &str)]) -> (Vec<u32>, Vec<u8>) {
    let mut words = vec![0; 16];
    let mut bytes = Vec::new();
    words[1] = u32::from(!definitions.is_empty());
    for (index, &(kind, path)) in definitions.iter().enumerate() {
        let next = if index + 1 < definitions.len() { index as u32 + 2 } else { 0 };
        words.extend([kind, next, bytes.len() as u32, path.len() as u32]);
        words.extend([0; 12]);
        bytes.extend(path.bytes());
    }
    (words, bytes)
}

/// The live list of such a log under a base.
fn live(definitions: &[(u32, &str)], base: &str) -> Vec<u32> {
    let (words, bytes) = log_of(definitions);
    Log::new(&words, &bytes).iter_live_defs_under(base).unwrap()
}

/// A path's history in such a log.
fn history(definitions: &[(u32, &str)], path: &str) -> Vec<u32> {
    let (words, bytes) = log_of(definitions);
    Log::new(&words, &bytes).history(path).unwrap()
}

#[test]
fn ab_is_no_child_of_a() {
    let log = [(NODE, "/a"), (NODE, "/ab"), (NODE, "/a/b")];
    assert_eq!(live(&log, "/a"), [3, 1]);
    let log = [(NODE, "/ab"), (NODE, "/a/b"), (DELETED_NODE, "/a")];
    assert_eq!(live(&log, "/"), [1]);
}

#[test]
fn deletions_take_away_what_was_before_them() {
    let log = [(NODE, "/a"), (PROPERTY, "/a/p"), (DELETED_NODE, "/a"), (NODE, "/a")];
    assert_eq!(live(&log, "/"), [4]);
    let log = [(PROPERTY, "/p"), (DELETED_PROPERTY, "/p"), (NODE, "/p")];
    assert_eq!(live(&log, "/"), [3]);
    let log = [(NODE, "/a"), (DELETED_PROPERTY, "/a")];
    assert_eq!(live(&log, "/"), [1], "a deleted property takes no node away");
}

#[test]
fn a_later_property_takes_the_place_of_an_earlier_one() {
    assert_eq!(live(&[(PROPERTY, "/p"), (PROPERTY, "/p"), (PROPERTY, "/q")], "/"), [3, 2]);
    assert_eq!(live(&[(NODE, "/a"), (NODE, "/a")], "/"), [2, 1], "nodes are opened again");
}

#[test]
fn a_history_has_the_deletions_above_by_which_a_path_went() {
    let log = [
        (DELETED_NODE, "/a"),
        (PROPERTY, "/a/p"),
        (DELETED_NODE, "/a"),
        (DELETED_NODE, "/"),
        (PROPERTY, "/a/p"),
        (DELETED_PROPERTY, "/a/p"),
        (DELETED_NODE, "/a"),
    ];
    assert_eq!(history(&log, "/a/p"), [2, 3, 5, 6]);
    assert_eq!(history(&log, "/a"), [1, 3, 7]);
}

#[test]
fn contains_node_asks_for_a_live_node() {
    let (words, bytes) = log_of(&[(NODE, "/a"), (NODE, "/a/b"), (DELETED_NODE, "/a/b"), (PROPERTY, "/p")]);
    let log = Log::new(&words, &bytes);
    let answers = ["/a", "/a/b", "/p", "/", ""].map(|path| log.contains_node(path));
    assert_eq!(answers, [Ok(true), Ok(false), Ok(false), Ok(false), Ok(false)]);
}

#[test]
fn long_lists_are_collected_whole() {
    for count in [63, 64, 65, 1000] {
        let paths: Vec<String> = (0..count).map(|number| format!("/n{number}")).collect();
        let definitions: Vec<_> = paths.iter().map(|path| (NODE, path.as_str())).collect();
        assert_eq!(live(&definitions, "/"), (1..=count).rev().collect::<Vec<u32>>());
        let again: Vec<_> = paths.iter().map(|_| (NODE, "/n")).collect();
        assert_eq!(history(&again, "/n"), (1..=count).collect::<Vec<u32>>());
    }
}

#[test]
fn a_list_is_not_written_past_its_answers() {
    let log = sample::log();
    for room in 4..8 {
        let mut list = vec![77; room];
        assert_eq!(log.iter_live_defs_under_into("/", &mut list), Ok(4));
        assert_eq!(list[..4], [7, 6, 3, 2]);
        assert!(list[4..].iter().all(|place| *place == 77));
    }
}

#[test]
fn a_path_may_stand_in_the_log_itself() {
    let log = sample::log();
    for definition in log.definitions() {
        assert!(log.history(definition.path).unwrap().contains(&definition.record));
    }
}

#[test]
fn empty_logs_answer_nothing() {
    let log = Log::new(&[0; 16], &[]);
    assert_eq!(log.iter_live_defs_under("/"), Ok(vec![]));
    assert_eq!(log.history("/"), Ok(vec![]));
    assert_eq!(log.contains_node("/"), Ok(false));
    assert_eq!(Log::new(&[], &[]).contains_node("/"), Err(QueryError::BrokenLog { record: 0 }));
}
