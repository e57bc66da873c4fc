//! Looks at a box: a recogniser and an offset.

use crate::refusals;
use crate::rng::Rng;
use jcc_types::{MOST_OFFSET, RECOGNISERS};

/// The recogniser whose gate reads the newest bars, wherever the judged one is.
const THREE_CROW: u32 = 12;

/// How many recognisers and offsets are tried where all are: one more of each than is accepted.
const ALL_RECOGNISERS: u32 = RECOGNISERS as u32 + 1;
const ALL_OFFSETS: u32 = MOST_OFFSET + 2;

#[derive(Clone, Copy, Debug)]
pub struct Look {
    pub recogniser: u32,
    pub offset: u32,
}

/// A look that is mostly accepted, at a history of so many bars.
pub fn random(rng: &mut Rng, count: usize) -> Look {
    let recogniser = match rng.below(50) {
        0 => rng.pick(&refusals::RECOGNISERS),
        1..10 => THREE_CROW,
        _ => rng.below(RECOGNISERS) as u32,
    };
    let offset = match rng.below(50) {
        0 => rng.pick(&refusals::LOOK_OFFSETS),
        1..6 => rng.between(count.max(2) - 1, count + 2) as u32,
        6..12 => rng.between(1, 3) as u32,
        _ => rng.between(1, MOST_OFFSET as usize) as u32,
    };
    Look { recogniser, offset }
}

/// Every recogniser at every offset, and the first refused ones.
pub fn all() -> impl Iterator<Item = Look> {
    (0..ALL_RECOGNISERS)
        .flat_map(|recogniser| (0..ALL_OFFSETS).map(move |offset| Look { recogniser, offset }))
}
