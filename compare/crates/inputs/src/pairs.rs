//! The pairs that each recogniser can give. A run must see all of them and no other.

use jcc_types::Label::{self, *};
use jcc_types::{LABELS, Pair};

/// How many pairs of labels there are.
pub const PLACES: usize = LABELS.len() * LABELS.len();

/// The place of a pair, in the export's form, among all: v1 × 38 + v2.
pub fn place(pair: u32) -> usize {
    (pair / 256) as usize * LABELS.len() + (pair % 256) as usize
}

/// Every v1 with every v2.
fn product(v1: &[Label], v2: &[Label]) -> Vec<Pair> {
    let with = |a: &Label| v2.iter().map(|b| Pair(*a, *b)).collect::<Vec<_>>();
    v1.iter().flat_map(with).collect()
}

/// The pairs for a window's size, and the pair without a match.
fn sized(v1: &[Label], sizes: &[Label]) -> Vec<Pair> {
    let mut pairs = product(v1, sizes);
    pairs.push(Pair(Other, Other));
    pairs
}

pub fn possible(recogniser: usize) -> Vec<Pair> {
    let met = [Other, Met];
    match recogniser {
        0 => product(&met, &[Other, Hammer, HangingMan]),
        1 => product(&met, &[Other, BullishEngulfing, BearishEngulfing]),
        2 | 3 | 14 => product(&met, &[Any]),
        4 => sized(&[RisingThree, FallingThree], &[K5, K6, K7, K8]),
        5 => product(&met, &[Other, RisingThree, FallingThree]),
        6 => product(&[Other, MorningStar, EveningStar], &[Any, MiddleDoji]),
        // A separation needs a close beyond the bar before, which makes v1 满足.
        7 => vec![
            Pair(Other, Other),
            Pair(Met, Other),
            Pair(Met, FallingSeparation),
            Pair(Met, RisingSeparation),
        ],
        8 => product(&met, &[Other, ArrowOnString, CandleInWind]),
        9 => product(&[Other, Bearish, Bullish], &[Any]),
        10 => product(&[Other, Bottom, Top], &[Any, StandardBody]),
        11 => product(&[Other, Bearish], &[Any]),
        12 => sized(&[Met], &[Regular, Strong, HalfStrong]),
        13 => {
            let kinds = [Other, DragonflyDoji, GravestoneDoji, LongLeggedDoji, Doji];
            let mut pairs = product(&kinds, &[Any, Northern]);
            pairs.push(Pair(Other, Other));
            pairs
        }
        15 => vec![
            Pair(Other, Any),
            Pair(Met, Any),
            Pair(Met, BullishCounterattack),
            Pair(Met, BearishCounterattack),
        ],
        16 => product(&[Other, GapUp, GapDown], &[Any]),
        17 => sized(&[Bottom, Top], &[K5, K6, K7, K8, K9]),
        _ => unreachable!("recognisers are below 18"),
    }
}
