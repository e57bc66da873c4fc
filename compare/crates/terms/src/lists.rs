//! Random lists of calls: runs, closes, and among them runs that are refused.

use crate::hours;
use crate::stamps::{self, Clock, Stamped};
use crate::trial::Trial;
use inputs::families::Family;
use inputs::rng::Rng;
use inputs::{Case, histories, hostile, refusals};
use jcc_types::{BAR_PRICES, ROW_BYTES};

/// The most bars of a run, in lists of several kinds.
const SIZES: [usize; 6] = [1, 2, 7, 70, 400, 5000];

/// Once in how many runs one comes that is refused, or a close; 0 for never.
const RATES: [usize; 4] = [0, 2, 5, 20];

/// A run far beyond the end, whose number of prices is 0 in 32 bits.
const BEYOND: u32 = 1 << 30;

/// A list over bars of a family.
pub fn random(rng: &mut Rng, family: &Family) -> Trial {
    let mut case = Case::new();
    let count = length(rng);
    histories::of_length(rng, family, count, &mut case);
    let hours = hours::random(rng);
    let minutes = rng.pick(&terms_model::MINUTES);
    let clock = Clock {
        hours: &hours,
        minutes,
    };
    let bars = if rng.one_in(2) {
        stamps::one_each(rng, &clock, &case.bars)
    } else {
        stamps::one_term_each(rng, &clock, &case.bars)
    };
    let mut builder = Builder::default();
    builder.fill(rng, &clock, &bars);
    if rng.one_in(3) {
        builder.spoil_end(rng);
    }
    let mut trial = builder.trial(case, hours.clone(), minutes);
    lend(rng, &mut trial);
    if rng.one_in(30) {
        spoil_making(rng, &mut trial);
    }
    trial
}

/// Short histories, and long ones for long terms.
fn length(rng: &mut Rng) -> usize {
    match rng.below(5) {
        0 => rng.between(0, 12),
        1..3 => rng.between(0, 120),
        3 => rng.between(0, 300),
        _ => rng.between(300, 1200),
    }
}

#[derive(Default)]
struct Builder {
    calls: Vec<u32>,
    bars: Vec<Stamped>,
    /// Stamps and prices past the last bar, or how many are missing at the end.
    more_stamps: Vec<u32>,
    more_prices: Vec<f64>,
    fewer_stamps: usize,
    fewer_prices: usize,
}

impl Builder {
    /// Runs of all bars, with closes and refused runs among them.
    fn fill(&mut self, rng: &mut Rng, clock: &Clock, mut bars: &[Stamped]) {
        let most = rng.pick(&SIZES);
        let [closes, refused] = [rng.pick(&RATES), rng.pick(&RATES)];
        let mut before = None;
        while !bars.is_empty() {
            while closes > 0 && rng.one_in(closes + 1) {
                self.calls.push(0);
            }
            if refused > 0 && rng.one_in(refused) {
                self.refused_run(rng, clock, before, bars);
                continue;
            }
            let (run, later) = bars.split_at(rng.between(1, most.min(bars.len())));
            self.run(run);
            before = run.last().map(|(stamp, _)| *stamp);
            bars = later;
        }
        if rng.one_in(2) {
            self.calls.push(0);
        }
    }

    fn run(&mut self, run: &[Stamped]) {
        self.calls.push(run.len() as u32);
        self.bars.extend(run);
    }

    /// Some of the next bars with a wrong stamp; they come again as they are.
    fn refused_run(&mut self, rng: &mut Rng, clock: &Clock, before: Option<u32>, bars: &[Stamped]) {
        let mut run = bars[..rng.between(1, bars.len().min(8))].to_vec();
        stamps::spoil(rng, clock, before, &mut run);
        self.run(&run);
    }

    /// Another number of stamps than bars at the end, and calls that reach past it or not so far.
    fn spoil_end(&mut self, rng: &mut Rng) {
        match rng.below(5) {
            0 => self.fewer_prices = rng.between(1, 9),
            1 => self.fewer_stamps = rng.between(1, 3),
            2 => self.more_prices = vec![1.0; rng.between(1, 5)],
            3 => {
                let last = self.bars.last().map_or(0, |(stamp, _)| *stamp);
                let more = (1..=rng.between(1, 3) as u32).map(|i| last.wrapping_add(i));
                self.more_stamps = more.collect();
            }
            _ => {}
        }
        let count = self.bars.len() as u32;
        match rng.below(4) {
            // Bars that no call takes.
            0 => {
                self.calls.truncate(rng.between(0, self.calls.len()));
                return;
            }
            // One run of all that the first calls leave, refused ones and what is missing among it.
            1..3 => {
                self.calls.truncate(rng.between(0, self.calls.len()));
                self.calls.push(rng.pick(&[count + 1, BEYOND]));
            }
            _ => {}
        }
        for _ in 0..rng.between(1, 4) {
            let call = rng.pick(&[0, 1, 2, 3, count, count + 1, BEYOND, u32::MAX]);
            self.calls.push(call);
        }
    }

    fn trial(self, case: Case, hours: Vec<u32>, minutes: u32) -> Trial {
        let mut stamps: Vec<u32> = self.bars.iter().map(|(stamp, _)| *stamp).collect();
        let mut prices: Vec<f64> = self.bars.iter().flat_map(|(_, bar)| bar.prices()).collect();
        stamps.truncate(stamps.len().saturating_sub(self.fewer_stamps));
        stamps.extend(self.more_stamps);
        prices.truncate(prices.len().saturating_sub(self.fewer_prices));
        prices.extend(self.more_prices);
        Trial {
            thresholds: case.thresholds,
            minutes,
            hours,
            stamps,
            prices,
            sheet: 0,
            answers: self.calls.len(),
            calls: self.calls,
            nan: None,
        }
    }
}

/// A sheet with room for all or too little, places for all answers or for fewer or more, and other NaN
/// patterns.
fn lend(rng: &mut Rng, trial: &mut Trial) {
    let bars = trial.prices.len() / BAR_PRICES;
    trial.sheet = match rng.below(8) {
        0 => rng.between(0, bars * ROW_BYTES),
        1 => rng.between(0, 40 * ROW_BYTES),
        2 => bars * ROW_BYTES,
        3 => bars / trial.minutes as usize * ROW_BYTES + rng.between(0, 20 * ROW_BYTES),
        _ => trial.enough() + rng.pick(&[0, 0, 1, ROW_BYTES - 1, ROW_BYTES, 100]),
    };
    let calls = trial.calls.len();
    trial.answers = match rng.below(10) {
        0 => 0,
        1 => rng.between(0, calls),
        2 => calls + rng.between(1, 50),
        _ => calls,
    };
    if trial.prices.iter().any(|price| price.is_nan()) && rng.one_in(2) {
        trial.nan = Some(hostile::nan(rng));
    }
}

/// Hours, a length of terms or a threshold that may be refused.
fn spoil_making(rng: &mut Rng, trial: &mut Trial) {
    if rng.one_in(2) {
        hours::spoil(rng, &mut trial.hours);
    }
    if rng.one_in(3) {
        trial.minutes = rng.pick(&[0, 1, 7, 30, 59, u32::MAX]);
    }
    if rng.one_in(3) {
        let sets = refusals::thresholds();
        trial.thresholds = sets[rng.below(sets.len())];
    }
}
