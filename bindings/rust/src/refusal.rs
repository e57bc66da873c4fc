//! Why a call is refused.

use std::fmt;

/// Why a plain call is refused. Its number is the scope's; the first that applies is given.
#[derive(Clone, Copy, Debug, PartialEq, Eq, PartialOrd, Ord, Hash)]
#[non_exhaustive]
#[repr(u32)]
pub enum Refusal {
    /// 1: the recogniser is above 17.
    Recogniser = 1,
    /// 2: the offset is 0.
    Offset = 2,
    /// 3: a threshold is outside its limits or NaN.
    Threshold = 3,
    /// 4: the bytes don't make whole bars.
    Bytes = 4,
    /// 5: the history has more than 1,000,000 bars.
    History = 5,
}

impl Refusal {
    /// The refusals of a plain call, in the order in which they are tried.
    pub const ALL: [Refusal; 5] = [
        Refusal::Recogniser,
        Refusal::Offset,
        Refusal::Threshold,
        Refusal::Bytes,
        Refusal::History,
    ];

    /// The refusal of a number from 1 to 5.
    pub fn from_number(number: u32) -> Option<Refusal> {
        Refusal::ALL.into_iter().find(|r| r.number() == number)
    }

    /// The number, 1 to 5.
    pub const fn number(self) -> u32 {
        self as u32
    }
}

impl fmt::Display for Refusal {
    fn fmt(&self, f: &mut fmt::Formatter<'_>) -> fmt::Result {
        f.pad(match self {
            Refusal::Recogniser => "refusal 1: the recogniser is above 17",
            Refusal::Offset => "refusal 2: the offset is 0",
            Refusal::Threshold => "refusal 3: a threshold is outside its limits",
            Refusal::Bytes => "refusal 4: the bytes don't make whole bars",
            Refusal::History => "refusal 5: the history has more than 1,000,000 bars",
        })
    }
}

impl std::error::Error for Refusal {}

#[cfg(test)]
mod tests {
    use super::*;

    #[test]
    fn numbers() {
        for number in 1..=5 {
            let refusal = Refusal::from_number(number).expect("a refusal");
            assert_eq!(refusal.number(), number);
            assert!(refusal
                .to_string()
                .starts_with(&format!("refusal {number}: ")));
        }
        assert_eq!(Refusal::from_number(0), None);
        assert_eq!(Refusal::from_number(6), None);
    }
}
