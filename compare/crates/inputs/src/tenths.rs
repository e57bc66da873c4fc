//! Doji tests of 13 and 14 at their edge: the range of a bar divided by its body is the threshold
//! divided by 10.0, the f64 above that, or the one below.
//!
//! They tell the one division from a product with 0.1, from ten times the quotient, from whole
//! numbers and from thresholds that are not divided.

use crate::Case;
use crate::rng::Rng;
use crate::thresholds::{NAMED_TENTHS, random_tenths};
use jcc_types::{Bar, Thresholds};

/// The recognisers with a threshold in tenths.
pub const RECOGNISERS: [usize; 2] = [13, 14];

/// Bodies: with the first two a quotient is exact, with the others it is rounded.
const BODIES: [f64; 4] = [1.0, 0.25, 3.0, 0.7];

/// A bar of one price, which is no doji.
const FLAT: Bar = Bar::new(1.0, 1.0, 1.0, 1.0);

/// Beside the named thresholds every one up to this is tried, and as many of the greatest.
const SMALL: u32 = 1000;

/// How many random ones are tried, of all and of those up to some thousands.
const RANDOM: usize = 2000;
const THOUSANDS: u32 = 20_000;

/// The thresholds that are tried, some more than once.
pub fn thresholds(rng: &mut Rng) -> Vec<u32> {
    const MOST: u32 = Thresholds::MOST_TENTHS;
    let mut all = NAMED_TENTHS.to_vec();
    all.extend(0..=SMALL);
    all.extend(MOST - SMALL..=MOST);
    for most in [THOUSANDS, MOST] {
        let random = |_| rng.between(0, most as usize) as u32;
        all.extend((0..RANDOM).map(random));
    }
    all
}

/// Every bar at the edge of a threshold, for 13 as the newest, for 14 as three of the newest five.
/// The threshold of the other recogniser is one with which most answers are others.
pub fn cases(th: u32) -> impl Iterator<Item = Case> {
    let thresholds = [[th, 0], [Thresholds::MOST_TENTHS, th]];
    let with = move |bar: Bar| thresholds.map(|own| case(own, bar));
    BODIES
        .into_iter()
        .flat_map(move |body| bars(th, body))
        .flat_map(with)
}

/// The two sides of the edge of a threshold, which is that of both recognisers.
pub fn sides(th: u32) -> [Case; 2] {
    let edge = edge(th);
    [edge, edge.next_up()].map(|range| case([th; 2], rising(1.0, range)))
}

/// As many bars as 13 needs, with the thresholds of 13 and 14.
fn case([th13, th14]: [u32; 2], edge: Bar) -> Case {
    let mut case = Case::new();
    case.bars.extend([FLAT; 6]);
    case.bars.extend([edge, FLAT, edge, FLAT, edge]);
    (case.thresholds.th13, case.thresholds.th14) = (th13, th14);
    case
}

/// The bars with a body at the edge of a threshold: below it, at it and above it, rising from zero
/// or falling to it.
fn bars(th: u32, body: f64) -> [Bar; 6] {
    let edge = body * edge(th);
    let [below, above] = [edge.next_down(), edge.next_up()];
    let falling = |range: f64| Bar::new(body, 0.0, 0.0, -range);
    [
        rising(body, below),
        falling(below),
        rising(body, edge),
        falling(edge),
        rising(body, above),
        falling(above),
    ]
}

/// The greatest range of a bar with a body of 1 that is no doji.
fn edge(th: u32) -> f64 {
    f64::from(th) / 10.0
}

/// A bar that rises from zero, its low, and whose high is its range.
fn rising(body: f64, range: f64) -> Bar {
    Bar::new(0.0, body, range, 0.0)
}

/// A history with bars at the edges of its two thresholds.
pub fn edges(rng: &mut Rng, case: &mut Case) {
    let mut threshold = || {
        if rng.one_in(4) {
            Thresholds::STANDARD.th13
        } else {
            random_tenths(rng)
        }
    };
    let own = [threshold(), threshold()];
    [case.thresholds.th13, case.thresholds.th14] = own;
    for _ in 0..rng.between(11, 24) {
        let bar = if rng.one_in(4) {
            FLAT
        } else {
            let (th, body) = (rng.pick(&own), rng.pick(&BODIES));
            rng.pick(&bars(th, body))
        };
        case.bars.push(bar);
    }
    case.offsets.extend(1..=4);
}
