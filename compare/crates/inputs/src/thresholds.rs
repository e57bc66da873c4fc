//! Random thresholds within their limits.

use crate::rng::Rng;
use jcc_types::Thresholds;

/// Whole thresholds where bars of whole numbers make ties.
const WHOLES: [u32; 20] = [
    0, 1, 2, 3, 5, 10, 20, 49, 50, 51, 99, 100, 101, 200, 300, 499, 500, 1000, 5000, 10_000,
];

/// The two with a fraction, at and around their limits too; 0.29 × 100 is below 29.
const REALS: [f64; 20] = [
    0.0,
    -0.0,
    f64::from_bits(1),
    f64::MIN_POSITIVE,
    0.001,
    0.01,
    0.29,
    0.57,
    0.58,
    1.0,
    1.15,
    2.0,
    2.5,
    4.35,
    50.0,
    100.0,
    8191.99,
    9999.99,
    9_999.999_999_999_998,
    Thresholds::MOST_REAL,
];

/// Thresholds in tenths that are always tried, and in the list of answers: the least, those around
/// the standard and around what it was in units, around the other whole thresholds' limit, and the
/// greatest. With 17, ten times the quotient above a doji's edge is rounded to 17, and 17 × 0.1 is
/// more than 17 ÷ 10.0.
pub const NAMED_TENTHS: [u32; 14] = [
    1,
    9,
    10,
    11,
    17,
    99,
    100,
    101,
    105,
    Thresholds::MOST_WHOLE - 1,
    Thresholds::MOST_WHOLE,
    Thresholds::MOST_WHOLE + 1,
    Thresholds::MOST_TENTHS - 1,
    Thresholds::MOST_TENTHS,
];

/// Thresholds within their limits, many at them.
pub fn random(rng: &mut Rng) -> Thresholds {
    let mut real = || {
        if rng.one_in(4) {
            rng.real(0.0, 10.0)
        } else {
            rng.pick(&REALS)
        }
    };
    let reals = [real(), real()];
    let wholes = std::array::from_fn(|i| {
        if Thresholds::is_in_tenths(i) {
            random_tenths(rng)
        } else {
            random_whole(rng)
        }
    });
    Thresholds::from_parts(reals, wholes)
}

fn random_whole(rng: &mut Rng) -> u32 {
    match rng.below(12) {
        0..3 => rng.between(0, 600) as u32,
        3 => Thresholds::MOST_WHOLE - rng.below(2) as u32,
        _ => rng.pick(&WHOLES),
    }
}

/// Half of the time whole units, such as the repository takes, otherwise anything: many next to
/// them.
pub fn random_tenths(rng: &mut Rng) -> u32 {
    const MOST: u32 = Thresholds::MOST_TENTHS;
    let units = Thresholds::UNIT * random_whole(rng);
    match rng.below(10) {
        0..5 => units,
        5 => units.saturating_sub(rng.between(1, 9) as u32),
        6 => MOST.min(units + rng.between(1, 9) as u32),
        7 => rng.pick(&NAMED_TENTHS),
        8 => rng.between(0, 1200) as u32,
        _ => rng.between(0, MOST as usize) as u32,
    }
}
