//! Makings of layers, refused or not, each with some calls.

use crate::hours;
use crate::judge::Judge;
use crate::trial::Trial;
use inputs::refusals;
use jcc_types::{BAR_PRICES, ROW_BYTES, Thresholds};
use program::Difference;

/// The lengths of terms: those that there are, their neighbours, others, and some that are 5 in 8 or 16
/// bits.
const MINUTES: [u32; 19] = [
    0,
    1,
    4,
    5,
    6,
    7,
    14,
    15,
    16,
    30,
    59,
    60,
    61,
    64,
    261,
    1440,
    65_541,
    1 << 31,
    u32::MAX,
];

const STAMPS: [u32; 8] = [0, 4, 5, 600, 700, 1439, 1440, 2139];

/// The stamps one by one, so that those within the hours are taken, and closes.
const CALLS: [u32; 10] = [0, 1, 1, 1, 1, 1, 1, 1, 1, 0];

/// A threshold that is refused.
const NAN: Thresholds = Thresholds {
    th0: f64::NAN,
    ..Thresholds::STANDARD
};

/// All hours with all lengths and two sets of thresholds; all sets with few hours and lengths.
pub fn all(judge: &mut Judge) -> Result<(), Difference> {
    for hours in hours::all() {
        for minutes in MINUTES {
            for thresholds in [Thresholds::STANDARD, NAN] {
                judge.try_alone(trial(thresholds, &hours, minutes))?;
            }
        }
    }
    for thresholds in refusals::thresholds() {
        for hours in [&[0, 1440][..], &[0, 1441], &[], &[570, 690, 690, 900]] {
            for minutes in [0, 5, 30, 60] {
                judge.try_alone(trial(thresholds, hours, minutes))?;
            }
        }
    }
    Ok(())
}

fn trial(thresholds: Thresholds, hours: &[u32], minutes: u32) -> Trial {
    let price = |i: usize| f64::from(i as u32 % 7);
    Trial {
        thresholds,
        minutes,
        hours: hours.to_vec(),
        stamps: STAMPS.to_vec(),
        prices: (0..STAMPS.len() * BAR_PRICES).map(price).collect(),
        calls: CALLS.to_vec(),
        sheet: CALLS.len() * ROW_BYTES,
        answers: CALLS.len(),
        nan: None,
    }
}
