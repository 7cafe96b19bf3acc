//! What is refused, with which number, and that nothing is written then.

use definition_log::{Log, QueryError, sample};

/// A place of the list that no query has written.
const UNTOUCHED: u32 = 77;

/// What all three queries say of the log in these words and the sample's bytes: they must agree.
fn fault(words: &[u32]) -> Option<u32> {
    let log = Log::new(words, sample::log().bytes());
    let mut list = [UNTOUCHED; 16];
    let live = log.iter_live_defs_under_into("/nowhere", &mut list).err();
    assert_eq!(log.history_into("/nowhere", &mut list).err(), live);
    assert_eq!(log.contains_node("/nowhere").err(), live);
    assert_eq!(list, [UNTOUCHED; 16]);
    live.map(|error| match error {
        QueryError::BrokenLog { record } => record,
        other => panic!("{other}"),
    })
}

/// The sample's words with some changed: record, word, value.
fn changed(changes: &[(usize, usize, u32)]) -> Vec<u32> {
    let mut words = sample::log().words().to_vec();
    for &(record, word, value) in changes {
        words[record * 16 + word] = value;
    }
    words
}

/// What is said of the sample with one word changed.
fn fault_at(record: usize, word: usize, value: u32) -> Option<u32> {
    fault(&changed(&[(record, word, value)]))
}

#[test]
fn the_sample_keeps_the_rules() {
    assert_eq!(fault(sample::log().words()), None);
}

#[test]
fn the_count_of_words_is_16_times_1_or_more() {
    let words = sample::log().words();
    for count in [0, 1, 15, 17, 175] {
        assert_eq!(fault(&words[..count]), Some(0), "{count} words");
    }
}

#[test]
fn links_lead_to_records_of_the_log() {
    for head in [1, 2, 3, 4, 6] {
        assert_eq!(fault_at(0, head, 11), Some(0), "word {head} of record 0");
    }
    for value in [11, 65_535, 65_536, u32::MAX] {
        assert_eq!(fault_at(3, 1, value), Some(3), "next {value}");
        assert_eq!(fault_at(3, 6, value), Some(3), "child {value}");
    }
    assert_eq!(fault_at(5, 6, 6), Some(5), "a binding has no children");
    assert_eq!(fault_at(5, 6, 4), Some(4), "what its child word leads to fits nowhere");
    assert_eq!(fault_at(3, 8, 11), None, "M is a link in extensions only");
}

#[test]
fn records_from_65536_on_are_no_part_of_the_log() {
    let mut words = changed(&[(10, 1, 65_535)]);
    words.resize(65_537 * 16, 0);
    for record in [65_535, 65_536] {
        words[record * 16] = 5;
    }
    assert_eq!(fault(&words), None);
    words[10 * 16 + 1] = 65_536;
    assert_eq!(fault(&words), Some(10));
}

#[test]
fn no_record_is_reached_twice() {
    assert_eq!(fault_at(10, 1, 1), Some(1), "a loop of definitions");
    assert_eq!(fault_at(4, 1, 4), Some(4), "a label that is its own next");
    assert_eq!(fault_at(2, 6, 4), Some(4), "two nodes with one label record");
}

#[test]
fn texts_end_inside_the_bytes() {
    assert_eq!(fault_at(9, 3, 7), Some(9));
    assert_eq!(fault_at(9, 3, u32::MAX), Some(9));
    assert_eq!(fault(&changed(&[(9, 2, u32::MAX), (9, 3, u32::MAX)])), Some(9));
    assert_eq!(fault_at(1, 2, 19), Some(1), "an empty text behind the end");
    assert_eq!(fault_at(1, 2, 18), None, "an empty text at the end");
    assert_eq!(fault_at(3, 4, 19), Some(3), "the second text of any kind");
}

#[test]
fn kinds_fit_their_chains() {
    for kind in [0, 7, 14, 16, u32::MAX] {
        assert_eq!(fault_at(2, 0, kind), Some(2), "kind {kind} among definitions");
    }
    assert_eq!(fault_at(4, 0, 8), Some(4), "a string among labels");
    assert_eq!(fault_at(5, 0, 15), Some(5), "a diagnostic among bindings");
}

#[test]
fn no_span_ends_before_its_start() {
    assert_eq!(fault_at(3, 10, 13), Some(3));
    assert_eq!(fault_at(3, 12, 16), Some(3), "the name span");
    assert_eq!(fault_at(3, 12, 17), None, "an empty span");
    assert_eq!(fault_at(4, 9, 1), None, "a label has no span");
    assert_eq!(fault_at(5, 11, 1), None, "a binding has no name span");
}

#[test]
fn paths_of_definitions_and_bindings_are_paths() {
    assert_eq!(fault_at(2, 3, 0), Some(2), "an empty path");
    assert_eq!(fault_at(9, 3, 3), Some(9), "/c/");
    assert_eq!(fault_at(5, 5, 0), Some(5), "a binding to an empty path");
    assert_eq!(fault_at(5, 3, 0), None, "an empty label");
    assert_eq!(fault(&changed(&[(1, 2, 3), (1, 3, 1)])), Some(1), "a version at a");
}

#[test]
fn the_lowest_record_is_returned() {
    assert_eq!(fault(&changed(&[(9, 3, 7), (5, 0, 15), (3, 12, 16)])), Some(3));
}

#[test]
fn counts_and_what_no_link_leads_to_are_not_looked_at() {
    assert_eq!(fault(&changed(&[(0, 0, u32::MAX), (0, 5, u32::MAX), (0, 15, 9)])), None);
    let mut words = sample::log().words().to_vec();
    words.extend([u32::MAX; 16]);
    assert_eq!(fault(&words), None);
}

#[test]
fn files_are_not_looked_at() {
    for word in [13, 14, 15] {
        assert_eq!(fault(&changed(&[(3, word, u32::MAX), (5, word, 9), (4, word, 1)])), None, "word {word}");
    }
}

#[test]
fn bad_paths_are_refused() {
    let log = sample::log();
    let mut list = [UNTOUCHED; 16];
    for path in ["a", "a/b", "/a/", "//", "//a", "/a//b", "/a/b/", "///"] {
        assert_eq!(log.iter_live_defs_under(path), Err(QueryError::BadPath), "{path}");
        assert_eq!(log.history(path), Err(QueryError::BadPath), "{path}");
        assert_eq!(log.contains_node(path), Err(QueryError::BadPath), "{path}");
        assert_eq!(log.iter_live_defs_under_into(path, &mut list), Err(QueryError::BadPath));
        assert_eq!(log.history_into(path, &mut list), Err(QueryError::BadPath));
    }
    assert_eq!(list, [UNTOUCHED; 16]);
    for path in ["", "/", "/a", "/a/b", "/a@1/b.c", "/\u{fc}"] {
        assert!(log.contains_node(path).is_ok(), "{path}");
    }
    assert!(log.contains_node([b'/', 0xff]).is_ok(), "paths are bytes");
}

#[test]
fn short_lists_are_refused_with_the_count() {
    let log = sample::log();
    for room in 0..4 {
        let mut list = vec![UNTOUCHED; room];
        let refused = log.iter_live_defs_under_into("/", &mut list);
        assert_eq!(refused, Err(QueryError::ListTooShort { needed: 4 }));
        assert_eq!(list, vec![UNTOUCHED; room]);
    }
    assert_eq!(log.history_into("/c", &mut [0]), Err(QueryError::ListTooShort { needed: 2 }));
    assert_eq!(log.history_into("/nowhere", &mut []), Ok(0));
}

#[test]
fn the_log_is_tried_first_then_the_path_then_the_list() {
    let log = sample::log();
    let cut = Log::new(&log.words()[..160], log.bytes());
    assert_eq!(cut.history_into("//", &mut []), Err(QueryError::BrokenLog { record: 9 }));
    assert_eq!(log.history_into("//", &mut []), Err(QueryError::BadPath));
    assert_eq!(log.history_into("/", &mut []), Err(QueryError::ListTooShort { needed: 2 }));
}
