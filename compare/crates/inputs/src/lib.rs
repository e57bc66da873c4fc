//! The inputs of the comparison, the list of answers and the benchmark. Everything random comes
//! from a seed, so that a run can be repeated.

pub mod boundaries;
pub mod cuts;
pub mod families;
pub mod grids;
pub mod histories;
pub mod hostile;
pub mod known;
pub mod list;
pub mod long_middles;
pub mod looks;
pub mod middles;
pub mod pairs;
pub mod planted;
pub mod refusals;
pub mod report;
pub mod rng;
pub mod tallies;
pub mod tenths;
pub mod thresholds;
pub mod walk;

use jcc_types::{Bar, Thresholds};

/// One history with thresholds, and the offsets to try on it.
#[derive(Clone, Debug)]
pub struct Case {
    pub bars: Vec<Bar>,
    pub thresholds: Thresholds,
    pub offsets: Vec<u32>,
}

impl Case {
    /// No bars, the standard set, offset 1.
    pub fn new() -> Case {
        Case {
            bars: Vec::new(),
            thresholds: Thresholds::STANDARD,
            offsets: vec![1],
        }
    }

    /// As new, with the memory kept.
    pub fn clear(&mut self) {
        self.bars.clear();
        self.thresholds = Thresholds::STANDARD;
        self.offsets.clear();
    }
}

impl Default for Case {
    fn default() -> Case {
        Case::new()
    }
}
