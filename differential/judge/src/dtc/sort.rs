//! Sorts of cells by what 02's rule and dtc do with them.

use super::{
    Stored,
    asked::{Answer, Refusal},
    expected::Expected,
};

#[derive(Debug, Clone, Copy, PartialEq, Eq, PartialOrd, Ord)]
pub enum Sort {
    Equal,
    ByZero,
    Range,
    Otherwise,
    NotNeeded,
    Shift,
    Cut,
}

impl Sort {
    pub const ALL: [Self; 7] =
        [Self::Equal, Self::ByZero, Self::Range, Self::Otherwise, Self::NotNeeded, Self::Shift, Self::Cut];

    pub fn name(self) -> &'static str {
        match self {
            Self::Equal => "equal: both store the same number",
            Self::ByZero => "equal: 02 says 25, dtc refuses a division by zero",
            Self::Range => "equal: 02 says 15, dtc refuses what is out of range",
            Self::Otherwise => "equal: 02 says 26 or 15, dtc refuses for another reason",
            Self::NotNeeded => "named: dtc refuses a division by zero that 02 does not evaluate",
            Self::Shift => "named: 02 says 26, for dtc a shift of 64 or more is 0",
            Self::Cut => "named: 02 says 15, dtc keeps the low bits, the sign bit lost",
        }
    }

    /// Whether 02 differs from dtc.
    pub fn departs(self) -> bool {
        matches!(self, Self::NotNeeded | Self::Shift | Self::Cut)
    }
}

/// The sort of a cell; nothing if a rule and dtc differ otherwise than is known, or are alike where they are
/// known to differ.
pub fn of(rule: Stored, dtc: Answer, expected: &Expected) -> Option<Sort> {
    if dtc != expected.answer {
        return None;
    }
    let kept = expected.kept;
    let (by_zero, shift) = (expected.evaluates(25), expected.evaluates(26));
    let sound = !by_zero && !shift;
    match (rule, dtc) {
        (Ok(stored), Ok(dtc)) if sound && kept == Some(stored) && stored == dtc => Some(Sort::Equal),
        (Err(25), Err(Refusal::ByZero)) if by_zero => Some(Sort::ByZero),
        (Err(15), Err(Refusal::Range)) if sound => Some(Sort::Range),
        (Err(26), Err(_)) if shift => Some(Sort::Otherwise),
        (Err(15), Err(Refusal::ByZero)) if sound && kept.is_none() => Some(Sort::Otherwise),
        (Ok(stored), Err(Refusal::ByZero)) if sound && kept == Some(stored) => Some(Sort::NotNeeded),
        (Err(26), Ok(_)) if shift => Some(Sort::Shift),
        (Err(15), Ok(_)) if sound && kept.is_none() => Some(Sort::Cut),
        _ => None,
    }
}
