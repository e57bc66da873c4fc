//! The parts of a run. Each is small, so that the threads end together.

use crate::judge::{self, Judge};
use crate::trial::Trial;
use crate::{refused, text};
use inputs::families::{self, PIECES, Share};
use inputs::histories::{self, LENGTHS};
use inputs::looks::Look;
use inputs::rng::Rng;
use inputs::{Case, known, walk};
use jcc_types::{Bar, KEPT, MAX_BARS, MOST_OFFSET};
use program::{Difference, Histories};

/// Streams of random numbers, beside those of the families.
const LOOKS: u64 = PIECES.len() as u64;
const LONG: u64 = LOOKS + 1;

pub enum Work {
    /// Histories with printed answers, and those about 12's gate.
    Known,
    Refusals,
    /// As many bars as there may be.
    MostBars,
    /// Every look at a history of each length at which something changes.
    AllLooks {
        length: usize,
        seed: u64,
    },
    /// Some histories of a family in many cuts, and looks.
    Random(Share),
}

/// All parts of a run, those that are always the same first.
pub fn all(options: &Histories) -> Vec<Work> {
    let seed = options.seed;
    let mut parts = vec![Work::Known, Work::Refusals, Work::MostBars];
    parts.extend(LENGTHS.map(|length| Work::AllLooks { length, seed }));
    parts.extend(families::shares(options.histories, seed).map(Work::Random));
    parts
}

impl Work {
    pub fn run(&self, judge: &mut Judge) -> Result<(), Difference> {
        match *self {
            Work::Known => known_histories(judge),
            Work::Refusals => refused::all(&mut judge.tally, &walk(MAX_BARS + 1)),
            Work::MostBars => most_bars(judge),
            Work::AllLooks { length, seed } => all_looks(judge, length, seed),
            Work::Random(share) => {
                let mut rng = share.rng();
                (0..share.count).try_for_each(|_| random_history(judge, share.family, &mut rng))
            }
        }
    }
}

fn random_history(judge: &mut Judge, family: usize, rng: &mut Rng) -> Result<(), Difference> {
    let mut case = Case::new();
    histories::random(rng, &PIECES[family], &mut case);
    try_history(judge, &case, rng)?;
    judge.tally.count_history(family, case.bars.len());
    Ok(())
}

fn try_history(judge: &mut Judge, case: &Case, rng: &mut Rng) -> Result<(), Difference> {
    let mut trial = Trial::of(case);
    let outcome = judge.try_history(&mut trial, rng);
    outcome.map_err(|wrong| judge.simplest(trial, wrong))
}

fn all_looks(judge: &mut Judge, length: usize, seed: u64) -> Result<(), Difference> {
    let mut rng = Rng::stream(seed, LOOKS, length as u64);
    let mut case = Case::new();
    for family in &PIECES {
        histories::of_length(&mut rng, family, length, &mut case);
        let mut trial = Trial::of(&case);
        let outcome = judge.try_all_looks(&mut trial, &mut rng);
        outcome.map_err(|wrong| judge.simplest(trial, wrong))?;
    }
    Ok(())
}

fn known_histories(judge: &mut Judge) -> Result<(), Difference> {
    let mut rng = Rng::stream(0, 0, 0);
    let known = known::all().into_iter().map(|known| Case {
        bars: known.bars,
        thresholds: known.thresholds,
        offsets: Vec::new(),
    });
    let mut cases = known.chain(histories::crows());
    cases.try_for_each(|case| try_history(judge, &case, &mut rng))
}

fn walk(count: usize) -> Vec<Bar> {
    walk::market(&mut Rng::stream(0, LONG, 0), count)
}

/// A difference here is not made simpler.
fn most_bars(judge: &mut Judge) -> Result<(), Difference> {
    let mut rng = Rng::stream(0, LONG, 1);
    let mut case = Case::new();
    case.bars = walk(MAX_BARS);
    let mut trial = Trial::of(&case);
    trial.sizes = (0..300).map(|_| rng.between(0, 5000) as u32).collect();
    let looks = [(12, 1), (12, MOST_OFFSET), (17, MOST_OFFSET), (18, 1)];
    let looks = looks.map(|(recogniser, offset)| Look { recogniser, offset });
    let outcome = judge.try_long(&mut trial, &looks);
    outcome.map_err(|wrong| Difference(long_report(&wrong, &trial)))
}

/// With the bars that a box has kept when it writes the first wrong row.
fn long_report(wrong: &str, trial: &Trial) -> String {
    let end = judge::bars_to_wrong_row(trial);
    let start = end.saturating_sub(KEPT);
    format!(
        "{wrong}\n{MAX_BARS} bars of a walk in {}; some of them:\n{}",
        text::sizes(&trial.sizes),
        text::bars(start + 1, &trial.bars[start..end]),
    )
}
