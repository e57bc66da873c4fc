//! The bars and closes that a list of calls accepted, in other cuts.

use crate::told::Told;
use crate::trial::Trial;
use inputs::rng::Rng;
use jcc_types::ROW_BYTES;

/// How the bars between two closes are cut.
#[derive(Clone, Copy)]
pub enum Cut {
    AllAtOnce,
    OneByOne,
    /// Runs of up to so many bars.
    UpTo(usize),
}

pub const CUTS: [Cut; 4] = [Cut::AllAtOnce, Cut::OneByOne, Cut::UpTo(6), Cut::UpTo(70)];

/// The list of these calls alone, with room for all rows.
pub fn again(rng: &mut Rng, trial: &Trial, told: &Told, cut: Cut) -> Trial {
    let mut calls = Vec::new();
    let mut passed = 0;
    for close in &told.closes {
        push_runs(rng, cut, close - passed, &mut calls);
        calls.push(0);
        passed = *close;
    }
    push_runs(rng, cut, told.taken.len() - passed, &mut calls);
    let bars = told.taken.iter();
    Trial {
        thresholds: trial.thresholds,
        minutes: trial.minutes,
        hours: trial.hours.clone(),
        stamps: bars.clone().map(|taken| taken.stamp).collect(),
        prices: bars.flat_map(|taken| taken.bar.prices()).collect(),
        sheet: (told.taken.len() + told.closes.len()) * ROW_BYTES,
        answers: calls.len(),
        calls,
        nan: trial.nan,
    }
}

fn push_runs(rng: &mut Rng, cut: Cut, mut bars: usize, calls: &mut Vec<u32>) {
    while bars > 0 {
        let size = match cut {
            Cut::AllAtOnce => bars,
            Cut::OneByOne => 1,
            Cut::UpTo(most) => rng.between(1, most.min(bars)),
        };
        calls.push(size as u32);
        bars -= size;
    }
}
