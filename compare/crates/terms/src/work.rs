//! The parts of a run. Each is small, so that the threads end together.

use crate::judge::Judge;
use crate::stamps::Clock;
use crate::trial::Trial;
use crate::{examples, limit, lists, makings};
use inputs::families::{self, PIECES, Share};
use inputs::rng::Rng;
use inputs::walk;
use jcc_types::{Bar, MAX_BARS, Thresholds};
use program::{Difference, Histories};
use terms_model::MINUTES;

/// A stream of random numbers, beside those of the families.
const LONG: u64 = PIECES.len() as u64;

pub enum Work {
    /// Lists with known answers.
    Examples,
    Makings,
    /// As many term bars as there may be.
    Limit(usize),
    /// Many minute bars of a usual trading day.
    Long {
        minutes: u32,
        seed: u64,
    },
    /// Some lists over bars of a family, and what they accepted in other cuts.
    Random(Share),
}

/// All parts of a run, those that are always the same first.
pub fn all(options: &Histories) -> Vec<Work> {
    let seed = options.seed;
    let mut parts = vec![Work::Examples, Work::Makings];
    parts.extend((0..limit::LISTS).map(Work::Limit));
    parts.extend(MINUTES.map(|minutes| Work::Long { minutes, seed }));
    parts.extend(families::shares(options.histories, seed).map(Work::Random));
    parts
}

impl Work {
    pub fn run(&self, judge: &mut Judge) -> Result<(), Difference> {
        match *self {
            Work::Examples => examples::all(judge),
            Work::Makings => makings::all(judge),
            Work::Limit(number) => limit::list(judge, number),
            Work::Long { minutes, seed } => long(judge, minutes, seed),
            Work::Random(share) => {
                let mut rng = share.rng();
                (0..share.count).try_for_each(|_| {
                    let trial = lists::random(&mut rng, &PIECES[share.family]);
                    judge.try_list(trial, &mut rng)
                })
            }
        }
    }
}

/// A walk of minute bars in two windows of a day, in runs of many sizes, with a close now and then.
fn long(judge: &mut Judge, minutes: u32, seed: u64) -> Result<(), Difference> {
    let mut rng = Rng::stream(seed, LONG, u64::from(minutes));
    let bars = walk::market(&mut rng, MAX_BARS);
    let clock = Clock {
        hours: &[570, 690, 780, 900],
        minutes,
    };
    let mut stamps = Vec::with_capacity(bars.len());
    let mut next = 0;
    for _ in &bars {
        next = clock.within(next);
        stamps.push(next as u32);
        next += 1;
    }
    let mut calls = Vec::new();
    let mut left = bars.len();
    while left > 0 {
        let size = rng.between(1, 5000.min(left));
        calls.push(size as u32);
        if rng.one_in(3) {
            calls.push(0);
        }
        left -= size;
    }
    let mut trial = Trial {
        thresholds: Thresholds::STANDARD,
        minutes,
        hours: clock.hours.to_vec(),
        stamps,
        prices: bars.iter().flat_map(Bar::prices).collect(),
        answers: calls.len(),
        calls,
        sheet: 0,
        nan: None,
    };
    trial.sheet = trial.enough();
    judge.try_alone(trial).map(|_| ())
}
