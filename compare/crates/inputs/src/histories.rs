//! Histories for a box: longer than the 64 bars that it keeps, made of pieces of the random
//! families.

use crate::Case;
use crate::families::Family;
use crate::rng::Rng;
use crate::thresholds;
use jcc_types::Bar;

/// The most bars of a random history.
const MOST: usize = 300;

/// Lengths at and around those at which something changes: the rules and the quarter, 12's gate, a
/// look's greatest offset, the kept bars, and all kept bars replaced.
pub const LENGTHS: [usize; 32] = [
    0, 1, 2, 3, 5, 8, 11, 12, 16, 20, 21, 22, 23, 24, 25, 26, 42, 43, 44, 45, 62, 63, 64, 65, 66,
    67, 86, 87, 107, 127, 128, 129,
];

fn length(rng: &mut Rng) -> usize {
    match rng.below(3) {
        0 => rng.pick(&LENGTHS),
        1 => rng.between(0, 70),
        _ => rng.between(0, MOST),
    }
}

/// A history of any length up to the most.
pub fn random(rng: &mut Rng, family: &Family, case: &mut Case) {
    let count = length(rng);
    of_length(rng, family, count, case);
}

/// A history of so many bars: pieces of a family, the newest of them whole, since that is where
/// most patterns stand. The thresholds are the last piece's, or others.
pub fn of_length(rng: &mut Rng, family: &Family, count: usize, case: &mut Case) {
    case.clear();
    let mut piece = Case::new();
    while case.bars.len() < count {
        piece.clear();
        (family.fill)(rng, &mut piece);
        case.bars.extend_from_slice(&piece.bars);
    }
    case.bars.drain(..case.bars.len() - count);
    case.thresholds = if rng.one_in(4) {
        thresholds::random(rng)
    } else {
        piece.thresholds
    };
}

/// Bars before and after the crows: so that the history passes 23 bars and the kept bars with them,
/// before them or after them, and that the gate's 20 bars have them, or some, or none.
const BEFORE: [usize; 12] = [0, 1, 10, 18, 19, 20, 21, 22, 30, 60, 61, 62];
const AFTER: [usize; 13] = [0, 1, 2, 3, 18, 19, 20, 21, 22, 23, 41, 42, 43];

/// Prices of flat bars above and below the crows: above them, they shut 12's gate.
const LEVELS: [f64; 2] = [100.0, 1.0];

/// Three crows among flat bars: whether 12 finds them depends on the history's length and on where
/// the higher bars are.
pub fn crows() -> Vec<Case> {
    let crows = [
        Bar::new(20.0, 16.0, 21.0, 15.0),
        Bar::new(17.0, 13.0, 18.0, 12.0),
        Bar::new(14.0, 10.0, 15.0, 9.0),
    ];
    let flat = |level: f64, count: usize| vec![Bar::from_prices([level; 4]); count];
    let mut cases = Vec::new();
    for before in BEFORE {
        for after in AFTER {
            for [older, newer] in [[0, 0], [0, 1], [1, 0], [1, 1]] {
                let mut case = Case::new();
                case.bars.extend(flat(LEVELS[older], before));
                case.bars.extend(crows);
                case.bars.extend(flat(LEVELS[newer], after));
                cases.push(case);
            }
        }
    }
    cases
}
