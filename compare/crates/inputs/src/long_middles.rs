//! The benchmark's walk with gaps and long middles: every twenty bars end with a planted pattern of 4
//! or 17, mostly in the longest windows that these try.

use crate::rng::Rng;
use crate::walk::Walk;
use jcc_types::Bar;

/// So many bars make up a pattern and what stands before it.
const PERIOD: usize = 20;

/// The bars between the first and the last of a pattern.
const METHODS_MIDDLES: [usize; 6] = [3, 4, 5, 6, 6, 6];
const TOWER_MIDDLES: [usize; 7] = [3, 4, 5, 6, 7, 7, 7];

/// So many bars of the walk.
pub fn long_middles(rng: &mut Rng, count: usize) -> Vec<Bar> {
    let mut walk = Walk::gapped();
    let mut bars = Vec::with_capacity(count + PERIOD);
    while bars.len() < count {
        let pattern = Pattern::random(rng);
        for _ in pattern.middle + 2..PERIOD {
            bars.push(walk.bar(rng));
        }
        pattern.push(rng, &mut walk, &mut bars);
    }
    bars.truncate(count);
    bars
}

struct Pattern {
    is_tower: bool,
    middle: usize,
}

impl Pattern {
    fn random(rng: &mut Rng) -> Pattern {
        let is_tower = rng.one_in(3);
        let middle = if is_tower {
            rng.pick(&TOWER_MIDDLES)
        } else {
            rng.pick(&METHODS_MIDDLES)
        };
        Pattern { is_tower, middle }
    }

    /// Goes on from the walk's price, after a gap.
    fn push(&self, rng: &mut Rng, walk: &mut Walk, bars: &mut Vec<Bar>) {
        let scale = self.scale(rng, walk);
        let shape = if self.is_tower {
            tower(rng, self.middle)
        } else {
            three_methods(rng, self.middle)
        };
        bars.extend(shape.into_iter().map(|bar| walk.lay(scale.prices(bar))));
    }

    /// Three methods lead back to a hundred, so that the price stays near it: far above, the highs of
    /// a tower would vary too much, far below, a cent would be too coarse.
    fn scale(&self, rng: &mut Rng, walk: &Walk) -> Scale {
        let reach = walk.reach();
        let falls = if self.is_tower {
            rng.one_in(2)
        } else {
            walk.price() > 100.0
        };
        Scale {
            base: walk.price() + rng.real(-reach, reach),
            unit: if falls { -reach } else { reach },
        }
    }
}

/// Prices of a shape are multiples of the unit above the base, below it if the unit is negative.
struct Scale {
    base: f64,
    unit: f64,
}

impl Scale {
    fn prices(&self, shape: [f64; 4]) -> [f64; 4] {
        let [open, close, high, low] = shape.map(|price| self.base + price * self.unit);
        [open, close, high.max(low), high.min(low)]
    }
}

/// 4: a long rise from 0, small bars within it of which one is higher, a rise above all of them.
fn three_methods(rng: &mut Rng, middle: usize) -> Vec<[f64; 4]> {
    let mut bars = vec![with_shadows(rng, 0.0, 3.0)];
    for _ in 0..middle {
        let open = rng.real(1.4, 2.8);
        bars.push(small(rng, open, open + 0.6));
    }
    bars[1 + rng.below(middle)][2] = 3.5;
    let [open, close] = [rng.real(1.5, 3.0), rng.real(4.0, 5.0)];
    bars.push(with_shadows(rng, open, close));
    bars
}

/// 17: a long rise from 0, small bars with like highs above both ends, a long fall.
fn tower(rng: &mut Rng, middle: usize) -> Vec<[f64; 4]> {
    let mut bars = vec![with_shadows(rng, 0.0, 3.0)];
    for _ in 0..middle {
        let open = rng.real(2.4, 3.2);
        bars.push(small(rng, open, 3.5));
    }
    let [open, close] = [rng.real(2.8, 3.4), rng.real(-0.5, 1.0)];
    bars.push(with_shadows(rng, open, close));
    bars
}

/// One of the two long bars.
fn with_shadows(rng: &mut Rng, open: f64, close: f64) -> [f64; 4] {
    let high = open.max(close) + rng.real(0.0, 0.3);
    let low = open.min(close) - rng.real(0.0, 0.3);
    [open, close, high, low]
}

/// A bar of a middle up to about this high. It falls, so that no shorter window starts with it; once
/// in four times it rises.
fn small(rng: &mut Rng, open: f64, high: f64) -> [f64; 4] {
    let close = open - rng.real(0.1, 0.8);
    let high = high + rng.real(-0.2, 0.2);
    let low = close - rng.real(0.0, 0.3);
    if rng.one_in(4) {
        [close, open, high, low]
    } else {
        [open, close, high, low]
    }
}
