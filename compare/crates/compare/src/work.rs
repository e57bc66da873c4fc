//! The parts of a run. Each is small, so that the threads end together.

use crate::families::{EDGES, EXHAUSTIVE, KNOWN, MIDDLES, REFUSALS, SIGNALLING};
use crate::judge::Judge;
use crate::options::Options;
use inputs::families::{FAMILIES, LONG};
use inputs::grids::{GRIDS, Grid};
use inputs::middles::{self, Window};
use inputs::rng::Rng;
use inputs::{Case, known, refusals, tenths, walk};
use jcc_types::{BAR_BYTES, Bar, MAX_BARS, RECOGNISERS};
use program::Difference;
use std::ops::Range;

/// The calls for each recogniser in a part of a random family.
const PART_CALLS: u64 = 20_000;

/// The histories in a part of a grid.
const PART_HISTORIES: usize = 20_000;

const ALL: [usize; RECOGNISERS] = {
    let mut all = [0; RECOGNISERS];
    let mut k = 0;
    while k < RECOGNISERS {
        all[k] = k;
        k += 1;
    }
    all
};

pub enum Work {
    Known,
    Refusals,
    /// As many bars as there may be, judged by the repository.
    MostBars,
    /// Doji tests of 13 and 14 at their edge, for many thresholds.
    Edges {
        seed: u64,
    },
    Grid(&'static Grid, Range<usize>),
    Middles {
        window: Window,
        part: u64,
        seed: u64,
    },
    Random {
        family: usize,
        part: u64,
        calls: u64,
        seed: u64,
    },
}

/// All parts of a run. A little of every random family comes first, so that most errors show early.
pub fn all(options: &Options) -> Vec<Work> {
    let seed = options.seed;
    let mut parts = vec![Work::Known, Work::Refusals, Work::MostBars];
    parts.push(Work::Edges { seed });
    parts.extend(random_parts(options, 0..1));
    parts.extend(middle_parts(options));
    for grid in &GRIDS {
        for start in (0..grid.size()).step_by(PART_HISTORIES) {
            let end = grid.size().min(start + PART_HISTORIES);
            parts.push(Work::Grid(grid, start..end));
        }
    }
    parts.extend(random_parts(options, 1..u64::MAX));
    parts
}

/// A part for each window of the middles.
fn middle_parts(options: &Options) -> impl Iterator<Item = Work> {
    let part = |(part, window)| Work::Middles {
        window,
        part,
        seed: options.seed,
    };
    (0..).zip(middles::windows()).map(part)
}

/// The parts of all random families whose numbers are in a range.
fn random_parts(options: &Options, numbers: Range<u64>) -> Vec<Work> {
    let mut parts = Vec::new();
    for (family, f) in FAMILIES.iter().enumerate() {
        let calls = (options.calls * f.percent).div_ceil(100);
        let end = numbers.end.min(calls.div_ceil(PART_CALLS));
        for part in numbers.start..end {
            parts.push(Work::Random {
                family,
                part,
                calls: PART_CALLS.min(calls - part * PART_CALLS),
                seed: options.seed,
            });
        }
    }
    parts
}

impl Work {
    pub fn run(&self, judge: &mut Judge) -> Result<(), Difference> {
        match self {
            Work::Known => known::all()
                .iter()
                .try_for_each(|k| judge.check_known(KNOWN, k)),
            Work::Refusals => refusal_calls(judge),
            Work::MostBars => most_bars(judge),
            Work::Edges { seed } => edge_calls(judge, &mut Rng::stream(*seed, EDGES as u64, 0)),
            Work::Grid(grid, range) => grid_calls(judge, grid, range.clone()),
            Work::Middles { window, part, seed } => {
                let mut rng = Rng::stream(*seed, MIDDLES as u64, *part);
                middle_calls(judge, window, &mut rng)
            }
            Work::Random {
                family,
                part,
                calls,
                seed,
            } => {
                let mut rng = Rng::stream(*seed, *family as u64, *part);
                random_calls(judge, *family, *calls, &mut rng)
            }
        }
    }
}

fn random_calls(
    judge: &mut Judge,
    family: usize,
    calls: u64,
    rng: &mut Rng,
) -> Result<(), Difference> {
    let mut case = Case::new();
    let mut done = 0;
    while done < calls {
        case.clear();
        (FAMILIES[family].fill)(rng, &mut case);
        judge.check(family, &case, &ALL)?;
        if FAMILIES[family].has_nan {
            judge.check_signalling(SIGNALLING, &case, &ALL, rng)?;
        }
        done += case.offsets.len() as u64;
    }
    Ok(())
}

fn grid_calls(judge: &mut Judge, grid: &Grid, range: Range<usize>) -> Result<(), Difference> {
    let recognisers = grid.recognisers();
    let mut case = grid.case();
    for number in range {
        grid.lay(number, &mut case);
        judge.check(EXHAUSTIVE, &case, &recognisers)?;
    }
    Ok(())
}

/// First the window as planted: if it had not its label, the changes would say little.
fn middle_calls(judge: &mut Judge, window: &Window, rng: &mut Rng) -> Result<(), Difference> {
    judge.check_known(MIDDLES, &window.known())?;
    for case in window.cases() {
        judge.check(MIDDLES, &case, &middles::RECOGNISERS)?;
        judge.check_signalling(SIGNALLING, &case, &middles::RECOGNISERS, rng)?;
    }
    Ok(())
}

fn edge_calls(judge: &mut Judge, rng: &mut Rng) -> Result<(), Difference> {
    for th in tenths::thresholds(rng) {
        for case in tenths::cases(th) {
            judge.check(EDGES, &case, &tenths::RECOGNISERS)?;
        }
    }
    Ok(())
}

/// A walk of one bar more than there may be.
fn too_many_bars() -> Vec<Bar> {
    walk::market(&mut Rng::stream(0, 0, 0), MAX_BARS + 1)
}

fn refusal_calls(judge: &mut Judge) -> Result<(), Difference> {
    let bars = too_many_bars();
    let mut bytes: Vec<u8> = bars.iter().flat_map(|b| b.to_bytes()).collect();
    bytes.extend([0; BAR_BYTES]);
    for t in refusals::thresholds() {
        for length in refusals::byte_lengths() {
            for recogniser in refusals::RECOGNISERS {
                for offset in refusals::OFFSETS {
                    let bytes = &bytes[..length];
                    judge.check_refusal(REFUSALS, recogniser, offset, &t, bytes, &bars)?;
                }
            }
        }
    }
    Ok(())
}

fn most_bars(judge: &mut Judge) -> Result<(), Difference> {
    let most = MAX_BARS as u32;
    let mut case = Case::new();
    case.bars = too_many_bars();
    case.bars.truncate(MAX_BARS);
    case.offsets = vec![1, 2, 22, 43, 64, most - 1, most, most + 1, u32::MAX];
    case.offsets.extend((0..30).map(|i| most - 30 + i));
    judge.check(LONG, &case, &ALL)
}
