//! What a part of a run counted.

use std::{iter::Sum, ops::Add};

/// How many were compared, how many of them differ, and how many answers are set aside: those in which 01
/// speaks in the Rust's stead (codes 9 and 24 to 26), descriptions in which a look-up went by 02's second rule, and logs for
/// which 01 allows more than one record.
#[derive(Debug, Clone, Copy, Default, PartialEq, Eq)]
pub struct Counts {
    pub compared: u64,
    pub different: u64,
    pub aside: u64,
}

impl Counts {
    /// The counts of a part that sets nothing aside.
    pub fn of(compared: u64, different: u64) -> Self {
        Self { compared, different, ..Self::default() }
    }

    /// Prints the line that closes a run; fails if there are differences.
    pub fn closing(self) -> Result<(), String> {
        let Self { compared, different, aside } = self;
        println!("{compared} compared, {different} different, {aside} set aside");
        if different == 0 { Ok(()) } else { Err("there are differences".to_owned()) }
    }
}

impl Add for Counts {
    type Output = Self;

    fn add(self, other: Self) -> Self {
        Self {
            compared: self.compared + other.compared,
            different: self.different + other.different,
            aside: self.aside + other.aside,
        }
    }
}

impl Sum for Counts {
    fn sum<I: Iterator<Item = Self>>(parts: I) -> Self {
        parts.fold(Self::default(), Self::add)
    }
}
