//! Random numbers that are the same for the same seed (xorshift64*), and the seeds of a part.

use std::{cell::Cell, iter};

thread_local! {
    static AT_HAND: Cell<Option<u64>> = const { Cell::new(None) };
}

/// So many seeds from one on. Each is at hand until the next is taken, and none behind the last.
pub fn seeds(from: u64, count: u64) -> impl Iterator<Item = u64> {
    (from..from + count).map(Some).chain(iter::once(None)).inspect(|seed| AT_HAND.set(*seed)).flatten()
}

/// The seed that this thread is at.
pub fn seed_at_hand() -> Option<u64> {
    AT_HAND.get()
}

pub struct Random(u64);

impl Random {
    pub fn new(seed: u64) -> Self {
        let mut random = Self(seed.wrapping_mul(0x9e37_79b9_7f4a_7c15) ^ 0x2545_f491_4f6c_dd1d | 1);
        for _ in 0..4 {
            random.next();
        }
        random
    }

    #[allow(clippy::should_implement_trait, reason = "random numbers have no end")]
    pub fn next(&mut self) -> u64 {
        self.0 ^= self.0 >> 12;
        self.0 ^= self.0 << 25;
        self.0 ^= self.0 >> 27;
        self.0.wrapping_mul(0x2545_f491_4f6c_dd1d)
    }

    /// A number below `end`, which is not 0.
    pub fn below(&mut self, end: usize) -> usize {
        ((self.next() >> 11) % end as u64) as usize
    }

    /// True once in `of` times.
    pub fn once_in(&mut self, of: usize) -> bool {
        self.below(of) == 0
    }

    pub fn pick<T: Copy>(&mut self, from: &[T]) -> T {
        from[self.below(from.len())]
    }

    /// Puts a list into any order.
    pub fn shuffle<T>(&mut self, list: &mut [T]) {
        for end in (1..list.len()).rev() {
            list.swap(end, self.below(end + 1));
        }
    }

    /// A place in a list of weights, more often where the weight is larger.
    pub fn weighted(&mut self, weights: &[usize]) -> usize {
        let mut at = self.below(weights.iter().sum());
        for (place, weight) in weights.iter().enumerate() {
            if at < *weight {
                return place;
            }
            at -= weight;
        }
        unreachable!("the weights add up")
    }
}
