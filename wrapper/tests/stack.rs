//! How much stack a call takes. It is a single test, of threads that need more and more: a thread gets
//! an earlier one's stack again where that is large enough, and then a stack that is too small would not
//! be noticed.

use std::thread::Builder;

use definition_log::{Log, sample};

/// Runs something in a thread with this much stack.
fn within(stack: usize, run: fn()) {
    Builder::new().stack_size(stack).spawn(run).unwrap().join().unwrap();
}

#[test]
fn calls_take_no_more_stack_than_is_said() {
    within(384 << 10, || assert_eq!(sample::log().contains_node("/b"), Ok(true)));
    within(640 << 10, || assert_eq!(sample::log().history_into("/b", &mut [0]), Ok(1)));
    within(1472 << 10, || {
        let mut words = sample::log().words().to_vec();
        words.resize(65_536 * 16, 0);
        let log = Log::new(&words, sample::log().bytes());
        assert_eq!(log.iter_live_defs_under_into("/b", &mut [0]), Ok(1));
    });
    // What a thread has by itself.
    within(2 << 20, || {
        let lowered = sample::description().lower().unwrap();
        assert_eq!(lowered.log().definitions().count(), 8);
    });
}
