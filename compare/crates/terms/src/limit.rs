//! Lists with as many term bars as there may be. A term bar has one minute bar each, mostly.

use crate::judge::Judge;
use crate::trial::Trial;
use inputs::rng::Rng;
use inputs::walk;
use jcc_types::{BAR_PRICES, Bar, MAX_BARS, ROW_BYTES, Thresholds};
use program::Difference;

/// The streams of random numbers begin here.
const STREAM: u64 = 1000;

const MINUTES: u32 = 5;

/// The last minute of a day is outside.
const HOURS: [u32; 2] = [0, 1439];

/// A minute that is outside, beyond all terms that are used.
const OUTSIDE: u32 = 10_000 * 1440 - 1;

const MOST: u32 = MAX_BARS as u32;

/// The lists, by their numbers.
pub const LISTS: usize = 5;

pub fn list(judge: &mut Judge, number: usize) -> Result<(), Difference> {
    let mut rng = Rng::stream(0, STREAM, number as u64);
    let trial = match number {
        0 => closed_at_last(0),
        1 => closed_at_last(50 * ROW_BYTES),
        2 => never_closed(),
        3 => too_many_at_once(),
        _ => in_pieces(&mut rng),
    };
    judge.try_alone(trial).map(|_| ())
}

/// The stamps and calls of a list.
#[derive(Default)]
struct Calls {
    stamps: Vec<u32>,
    calls: Vec<u32>,
}

impl Calls {
    fn run(&mut self, stamps: impl IntoIterator<Item = u32>) {
        let before = self.stamps.len();
        self.stamps.extend(stamps);
        self.calls.push((self.stamps.len() - before) as u32);
    }

    fn close(&mut self) {
        self.calls.push(0);
    }

    /// With a walk's prices, of which some are missing, or more than the bars', and a sheet.
    fn trial(self, missing: usize, sheet: usize) -> Trial {
        let mut rng = Rng::stream(0, STREAM, LISTS as u64);
        let bars = walk::market(&mut rng, self.stamps.len());
        let mut prices: Vec<f64> = bars.iter().flat_map(Bar::prices).collect();
        prices.truncate(prices.len() - missing);
        Trial {
            thresholds: Thresholds::STANDARD,
            minutes: MINUTES,
            hours: HOURS.to_vec(),
            stamps: self.stamps,
            prices,
            answers: self.calls.len(),
            calls: self.calls,
            sheet,
            nan: None,
        }
    }
}

/// The first minute of a term.
fn term(number: u32) -> u32 {
    number * MINUTES
}

/// The last term bar that there may be is ended by a close.
fn closed_at_last(spare: usize) -> Trial {
    let mut calls = Calls::default();
    calls.run((0..MOST - 1).map(term));
    calls.run([term(MOST)]);
    // One has ended less than there may be, and one is open: only one bar may come, or a close.
    let next = term(MOST + 1);
    calls.run([next, next + 1]);
    calls.run([next, next]);
    calls.run([next, OUTSIDE]);
    calls.close();
    // None may come any more.
    calls.close();
    calls.run([next]);
    calls.run([0]);
    calls.run([OUTSIDE]);
    // The last run has three stamps, a whole bar and a half; then one has nothing.
    calls.run([next, next + 1, next + 2]);
    calls.calls.push(7);
    calls.close();
    calls.trial(BAR_PRICES + 2, MAX_BARS * ROW_BYTES + spare)
}

/// As many have ended as there may be, and one is open.
fn never_closed() -> Trial {
    let mut calls = Calls::default();
    calls.run((0..MOST).map(term));
    calls.run([term(MOST)]);
    calls.close();
    calls.run([term(MOST) + 1]);
    calls.run([term(MOST + 1)]);
    calls.calls.push(1);
    calls.close();
    calls.trial(0, (MAX_BARS + 5) * ROW_BYTES)
}

/// One bar more than there may be, alone and with what else is refused, though few would end.
fn too_many_at_once() -> Trial {
    let mut calls = Calls::default();
    calls.run((0..=MOST).map(term));
    calls.run([2, 3, 7]);
    calls.run((0..=MOST).map(|i| i % 5 + 10));
    calls.run((0..MOST).map(|i| 1438 + i / 500_000));
    calls.close();
    calls.trial(0, (MAX_BARS + 10) * ROW_BYTES)
}

/// Runs of any size and closes, up to the limit and past it.
fn in_pieces(rng: &mut Rng) -> Trial {
    let mut calls = Calls::default();
    let mut next = 0;
    while next < MOST + 20 {
        let most = match MOST.saturating_sub(next) {
            0..=40 => 2,
            41..=6000 => 40,
            _ => 5000,
        };
        let size = rng.between(1, most) as u32;
        calls.run((next..next + size).map(term));
        next += size;
        if rng.one_in(4) {
            calls.close();
        }
    }
    calls.close();
    calls.trial(0, (MAX_BARS + 5000) * ROW_BYTES)
}
