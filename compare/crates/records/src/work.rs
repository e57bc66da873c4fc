//! The parts of a run. Each is small, so that the threads end together.

use crate::judge::Judge;
use crate::options::Options;
use inputs::families::{FAMILIES, Family};
use inputs::rng::Rng;
use inputs::{Case, hostile, known, refusals, thresholds, walk};
use jcc_types::{Bar, MAX_BARS, RECOGNISERS, Thresholds};
use program::Difference;

/// The calls in a part of a random family.
const PART: u64 = 20_000;

/// A stream of random numbers, beside those of the families.
const LONG: u64 = FAMILIES.len() as u64;

/// Random offsets of a long history.
const LONG_OFFSETS: usize = 200;

pub enum Work {
    /// Histories with printed answers.
    Known,
    Refusals,
    /// As many bars as there may be, one less and one more.
    MostBars {
        seed: u64,
    },
    Random {
        family: &'static Family,
        calls: u64,
        /// The seed, the family's number and the part's.
        stream: [u64; 3],
    },
}

/// All parts of a run, those of the random families last.
pub fn all(options: &Options) -> Vec<Work> {
    let seed = options.seed;
    let mut parts = vec![Work::Known, Work::Refusals, Work::MostBars { seed }];
    for (number, family) in (0..).zip(&FAMILIES) {
        let calls = (options.calls * family.percent).div_ceil(100);
        parts.extend((0..calls.div_ceil(PART)).map(|part| Work::Random {
            family,
            calls: PART.min(calls - part * PART),
            stream: [seed, number, part],
        }));
    }
    parts
}

impl Work {
    pub fn run(&self, judge: &mut Judge) -> Result<(), Difference> {
        match *self {
            Work::Known => known_histories(judge),
            Work::Refusals => refused(judge),
            Work::MostBars { seed } => most_bars(judge, &mut Rng::stream(seed, LONG, 0)),
            Work::Random {
                family,
                calls,
                stream: [seed, number, part],
            } => random_calls(judge, family, calls, &mut Rng::stream(seed, number, part)),
        }
    }
}

/// Every recogniser, and a number that is none.
fn recognisers(rng: &mut Rng) -> [u32; RECOGNISERS + 1] {
    let mut numbers = std::array::from_fn(|k| k as u32);
    if rng.one_in(2) {
        numbers[RECOGNISERS] = (RECOGNISERS as u32).max(rng.word() as u32);
    }
    numbers
}

/// The refused offset, the history's length and its neighbours, and some far beyond it.
fn push_offsets(case: &mut Case) {
    let len = case.bars.len() as u32;
    case.offsets.extend(refusals::OFFSETS);
    case.offsets
        .extend([len.saturating_sub(1), len, len + 1, len + 2, 1 << 31]);
}

fn known_histories(judge: &mut Judge) -> Result<(), Difference> {
    let mut rng = Rng::stream(0, 0, 0);
    for known in known::all() {
        let mut case = Case {
            bars: known.bars,
            thresholds: known.thresholds,
            offsets: vec![known.offset],
        };
        push_offsets(&mut case);
        judge.check(&case, &recognisers(&mut rng))?;
    }
    Ok(())
}

/// Every threshold at and outside its limits.
fn refused(judge: &mut Judge) -> Result<(), Difference> {
    let mut rng = Rng::stream(0, 0, 0);
    for thresholds in refusals::thresholds() {
        for count in [0, 1, 2, 22, 64] {
            let mut case = Case {
                bars: walk::market(&mut rng, count),
                thresholds,
                offsets: Vec::new(),
            };
            push_offsets(&mut case);
            judge.check(&case, &recognisers(&mut rng))?;
            judge.check(&case, &refusals::RECOGNISERS)?;
        }
    }
    Ok(())
}

fn most_bars(judge: &mut Judge, rng: &mut Rng) -> Result<(), Difference> {
    let mut case = Case::new();
    case.bars = walk::market(rng, MAX_BARS + 1);
    let refused = Thresholds {
        th14: u32::MAX,
        ..Thresholds::STANDARD
    };
    for count in [MAX_BARS + 1, MAX_BARS, MAX_BARS - 1] {
        case.bars.truncate(count);
        for thresholds in [Thresholds::STANDARD, thresholds::random(rng), refused] {
            case.thresholds = thresholds;
            case.offsets.clear();
            push_offsets(&mut case);
            case.offsets
                .extend((0..LONG_OFFSETS).map(|_| rng.between(1, count) as u32));
            judge.check(&case, &recognisers(rng))?;
        }
    }
    Ok(())
}

fn random_calls(
    judge: &mut Judge,
    family: &Family,
    calls: u64,
    rng: &mut Rng,
) -> Result<(), Difference> {
    let limits = refusals::thresholds();
    let end = judge.tally.calls + calls;
    let mut case = Case::new();
    while judge.tally.calls < end {
        case.clear();
        (family.fill)(rng, &mut case);
        lay_nan_patterns(rng, &mut case.bars);
        if rng.one_in(4) {
            push_offsets(&mut case);
        }
        if rng.one_in(8) {
            case.thresholds = rng.pick(&limits);
        }
        judge.check(&case, &recognisers(rng))?;
    }
    Ok(())
}

/// Any pattern, quiet or signalling, in the place of each NaN.
fn lay_nan_patterns(rng: &mut Rng, bars: &mut [Bar]) {
    for place in 0..4 * bars.len() {
        let price = hostile::price_at(bars, place);
        if price.is_nan() {
            *price = f64::from_bits(hostile::nan(rng));
        }
    }
}
