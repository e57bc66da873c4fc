//! Where a rule changes its answer: two histories that differ in one price by one unit in the last
//! place. They are found with the plain port; what the answers must be, the judges say.

use crate::Case;
use crate::hostile::price_at;
use crate::rng::Rng;
use jcc_types::Label::{Any, Other};
use jcc_types::{Pair, RECOGNISERS, Thresholds};

/// A case at one offset whose answer changes with one price.
pub struct Boundary {
    pub recogniser: usize,
    pub case: Case,
    /// The price, counted through all bars of the case, four to a bar.
    pub place: usize,
    /// Its two values, next to each other.
    pub prices: [f64; 2],
    /// The plain port's answers.
    pub answers: [u32; 2],
}

/// How many prices are tried in a case.
const TRIES: usize = 12;

/// How often at most a price is moved before.
const MOVES: usize = 7;

/// The bars up to the judged one that a rule may read.
const REACH: usize = 22;

/// Looks for a boundary in a case, at one of its offsets. Some prices are moved before, each as far
/// as the answer stays: so several conditions of a rule come to their limits at once.
pub fn find(rng: &mut Rng, case: &Case) -> Option<Boundary> {
    let offset = rng.pick(&case.offsets);
    if offset as usize > case.bars.len() {
        return None;
    }
    let mut found = Boundary {
        recogniser: recogniser(rng, offset, case),
        case: case.clone(),
        place: 0,
        prices: [0.0; 2],
        answers: [0; 2],
    };
    found.case.offsets = vec![offset];
    for _ in 0..rng.between(0, MOVES) {
        found.slide(rng);
    }
    (0..TRIES).any(|_| found.try_price(rng)).then_some(found)
}

/// Mostly one that gives a label here, and a rare one if there is any.
fn recogniser(rng: &mut Rng, offset: u32, case: &Case) -> usize {
    let pair = |k: usize| port::label(k, offset, &case.thresholds, &case.bars);
    let labelled = |Pair(v1, _)| v1 != Other;
    let rare = |Pair(v1, v2)| v1 != Other && v2 != Other && v2 != Any;
    let test = if rng.one_in(2) { labelled } else { rare };
    let found: Vec<usize> = (0..RECOGNISERS).filter(|k| test(pair(*k))).collect();
    if found.is_empty() || rng.one_in(4) {
        rng.below(RECOGNISERS)
    } else {
        rng.pick(&found)
    }
}

impl Boundary {
    /// Takes another price of the bars up to the judged one, and somewhere else to move it to; none
    /// if one of them is NaN, which has no place in the order of prices.
    fn choose(&mut self, rng: &mut Rng) -> Option<[f64; 2]> {
        let p = self.case.bars.len() + 1 - self.case.offsets[0] as usize;
        let reach = p.min(REACH);
        // Most conditions are about the newest bars.
        let most = if rng.one_in(4) { reach } else { reach.min(5) };
        self.place = 4 * (p - 1 - rng.below(most)) + rng.below(4);
        let old = *price_at(&mut self.case.bars, self.place);
        let new = self.other_price(rng, old);
        (!old.is_nan() && !new.is_nan()).then_some([old, new])
    }

    /// Moves a price as far as the answer stays.
    fn slide(&mut self, rng: &mut Rng) {
        let Some([old, new]) = self.choose(rng) else {
            return;
        };
        let start = self.answer(old);
        if self.answer(new) != start {
            let [same, _] = self.narrow(start, old, new);
            self.lay(same);
        }
    }

    /// Moves a price somewhere else; if the answer changes, narrows that down.
    fn try_price(&mut self, rng: &mut Rng) -> bool {
        let Some([old, new]) = self.choose(rng) else {
            return false;
        };
        let start = self.answer(old);
        if self.answer(new) == start {
            self.lay(old);
            return false;
        }
        self.prices = self.narrow(start, old, new);
        self.answers = self.prices.map(|price| self.answer(price));
        true
    }

    /// Another price of the history, a little more or less, or something far away.
    fn other_price(&mut self, rng: &mut Rng, old: f64) -> f64 {
        let last = 4 * self.case.bars.len() - 1;
        match rng.below(4) {
            0 => old + rng.whole(-20, 20),
            1 => rng.pick(&[0.0, -1e6, 1e6]),
            _ => {
                let near = self.place.saturating_sub(12);
                let from = rng.between(near, last.min(near + 24));
                *price_at(&mut self.case.bars, from) + rng.whole(-1, 1)
            }
        }
    }

    /// Two neighbouring prices between `old`, whose answer is `start`, and `new`, whose is not: the
    /// first has that answer, the second another.
    fn narrow(&mut self, start: u32, old: f64, new: f64) -> [f64; 2] {
        let stays = |rank| self.answer(price_of(rank)) == start;
        narrow(rank(old), rank(new), stays).map(price_of)
    }

    pub fn lay(&mut self, price: f64) {
        *price_at(&mut self.case.bars, self.place) = price;
    }

    /// The plain port's answer with this price.
    fn answer(&mut self, price: f64) -> u32 {
        self.lay(price);
        let t: &Thresholds = &self.case.thresholds;
        port::label(self.recogniser, self.case.offsets[0], t, &self.case.bars).number()
    }

    /// The price's place counted back from the judged bar's low.
    pub fn distance(&self) -> usize {
        4 * (self.case.bars.len() + 1 - self.case.offsets[0] as usize) - 1 - self.place
    }

    /// Drops the bars that the change of answers doesn't need: those after the judged one, then the
    /// oldest.
    pub fn shrink(&mut self) {
        let newer = self.case.offsets[0] as usize - 1;
        let keep = self.case.bars.len() - newer;
        self.try_part(|case| {
            case.bars.truncate(keep);
            case.offsets[0] = 1;
        });
        while self.place >= 4 {
            self.place -= 4;
            if !self.try_part(|case| {
                case.bars.remove(0);
            }) {
                self.place += 4;
                return;
            }
        }
    }

    /// Changes the case, and back again if the answers are then others.
    fn try_part(&mut self, change: impl FnOnce(&mut Case)) -> bool {
        let before = self.case.clone();
        change(&mut self.case);
        let kept = self.prices.map(|price| self.answer(price)) == self.answers;
        if !kept {
            self.case = before;
        }
        kept
    }
}

/// The numbers of newest bars of a case with which the answer is another than with one bar fewer.
pub fn lengths(recogniser: usize, offset: u32, case: &Case) -> Vec<usize> {
    let all = case.bars.len();
    let answer = |count: usize| {
        let newest = &case.bars[all - count..];
        port::label(recogniser, offset, &case.thresholds, newest)
    };
    (1..=all).filter(|n| answer(*n) != answer(*n - 1)).collect()
}

/// A threshold of a recogniser: the place among the whole ones or among the two others.
#[derive(Clone, Copy)]
enum Threshold {
    Whole(usize),
    Real(usize),
}

use Threshold::{Real, Whole};

/// The thirteen thresholds with their recognisers.
const THRESHOLDS: [(usize, Threshold); 13] = [
    (0, Real(0)),
    (2, Whole(0)),
    (2, Whole(1)),
    (3, Whole(2)),
    (3, Whole(3)),
    (5, Whole(4)),
    (6, Whole(5)),
    (7, Whole(6)),
    (8, Real(1)),
    (8, Whole(7)),
    (10, Whole(8)),
    (13, Whole(9)),
    (14, Whole(10)),
];

/// Sets a threshold next to where the answer of its recogniser changes, if that is somewhere.
pub fn fit_threshold(rng: &mut Rng, case: &mut Case) {
    let (k, threshold) = rng.pick(&THRESHOLDS);
    let offset = rng.pick(&case.offsets);
    let mut reals = case.thresholds.reals();
    let mut wholes = case.thresholds.wholes();
    // Both kinds are searched as whole numbers; an f64 that is not negative by its bits.
    let most = match threshold {
        Whole(i) => Thresholds::most(i).into(),
        Real(_) => Thresholds::MOST_REAL.to_bits(),
    };
    let mut set = |value: u64| {
        match threshold {
            Whole(i) => wholes[i] = value as u32,
            Real(i) => reals[i] = f64::from_bits(value),
        }
        Thresholds::from_parts(reals, wholes)
    };
    let mut answer = |value: u64| port::label(k, offset, &set(value), &case.bars);
    let start = answer(0);
    if answer(most) == start {
        return;
    }
    let sides = narrow(0, most, |value| answer(value) == start);
    case.thresholds = set(rng.pick(&sides));
}

/// Two neighbouring numbers between `same`, which passes the test, and `other`, which does not: the
/// first passes, the second does not.
fn narrow(mut same: u64, mut other: u64, mut passes: impl FnMut(u64) -> bool) -> [u64; 2] {
    while same.abs_diff(other) > 1 {
        let middle = same.midpoint(other);
        if passes(middle) {
            same = middle;
        } else {
            other = middle;
        }
    }
    [same, other]
}

/// The place of a price in the order of all f64, −0 before +0.
fn rank(price: f64) -> u64 {
    let bits = price.to_bits();
    if bits >> 63 == 0 {
        bits | 1 << 63
    } else {
        !bits
    }
}

fn price_of(rank: u64) -> f64 {
    f64::from_bits(if rank >> 63 == 1 {
        rank & !(1 << 63)
    } else {
        !rank
    })
}
