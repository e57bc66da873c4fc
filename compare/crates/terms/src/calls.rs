//! What the text says of the calls of a list, one after the other: the refusals, and what is accepted.

use crate::noted;
use crate::seen::Seen;
use crate::told::{Answer, DAY, Told};
use crate::trial::Trial;
use jcc_types::{BAR_PRICES, MAX_BARS, ROW_BYTES};

/// What a run is handed.
struct Run<'a> {
    stamps: &'a [u32],
    prices: &'a [f64],
    /// The bytes of its sheet.
    sheet: usize,
}

pub fn tell(trial: &Trial, seen: &mut Seen) -> Told {
    let mut told = Told::new(trial, making_refusal(trial, seen));
    if told.made == 0 {
        make(&mut told, trial, seen);
    }
    told
}

fn make(told: &mut Told, trial: &Trial, seen: &mut Seen) {
    let mut passed = 0;
    for call in &trial.calls {
        let sheet = trial.sheet - told.ended() * ROW_BYTES;
        let answer = if *call == 0 {
            close(told, sheet, seen)
        } else {
            let next = passed + *call as usize;
            let handed = Run {
                stamps: part(&trial.stamps, passed, next),
                prices: part(&trial.prices, passed * BAR_PRICES, next * BAR_PRICES),
                sheet,
            };
            passed = next;
            run(told, &handed, seen)
        };
        seen.answer(answer, told.answers.last().copied());
        told.answers.push(answer);
    }
}

fn close(told: &mut Told, sheet: usize, seen: &mut Seen) -> Answer {
    let holds = [told.ended() + 1 > MAX_BARS, sheet < ROW_BYTES];
    let refusal = first(&[5, 6], &holds, seen);
    noted::close(told, refusal, seen);
    if let Some(refusal) = refusal {
        return Answer::Refused(refusal);
    }
    let before = told.ended();
    told.close();
    Answer::Rows(told.ended() - before)
}

fn run(told: &mut Told, run: &Run, seen: &mut Seen) -> Answer {
    noted::run(run.stamps, run.prices, seen);
    let bars = run.prices.len() / BAR_PRICES;
    let stamps = stamps_refusals(told, run.stamps);
    let holds = [
        !run.prices.len().is_multiple_of(BAR_PRICES) || bars != run.stamps.len(),
        told.ended() + bars > MAX_BARS,
        run.sheet / ROW_BYTES < bars,
        stamps.iter().any(|(_, refusal)| *refusal == 10),
        stamps.iter().any(|(_, refusal)| *refusal == 11),
    ];
    if holds[..3].contains(&true) {
        let refusal = first(&[4, 5, 6, 10, 11], &holds, seen);
        return Answer::Refused(refusal.expect("one holds"));
    }
    noted::stamps(told, run.stamps, &stamps, seen);
    if let Some((_, refusal)) = stamps.first() {
        return Answer::Refused(*refusal);
    }
    let before = told.ended();
    let bars = run.prices.as_chunks().0;
    for (stamp, prices) in run.stamps.iter().zip(bars) {
        let next = told.next(*stamp, *prices);
        noted::taken(told, &next, seen);
        told.take(next);
    }
    Answer::Rows(told.ended() - before)
}

/// For each stamp that is wrong its place in the run and its refusals, 10 before 11.
fn stamps_refusals(told: &Told, stamps: &[u32]) -> Vec<(usize, u32)> {
    let last = told.taken.last().map(|taken| taken.stamp);
    let before = [last].into_iter().chain(stamps.iter().copied().map(Some));
    let mut wrong = Vec::new();
    for (i, (stamp, before)) in stamps.iter().zip(before).enumerate() {
        if before.is_some_and(|before| *stamp <= before) {
            wrong.push((i, 10));
        }
        if told.place(*stamp).is_none() {
            wrong.push((i, 11));
        }
    }
    wrong
}

/// The elements between two places, as far as they go.
fn part<T>(all: &[T], from: usize, to: usize) -> &[T] {
    &all[from.min(all.len())..to.min(all.len())]
}

/// The first of the refusals that hold; several at once are counted.
fn first(refusals: &[u32], holds: &[bool], seen: &mut Seen) -> Option<u32> {
    let mut holding = refusals.iter().zip(holds).filter(|(_, holds)| **holds);
    let (first, _) = holding.next()?;
    holding.for_each(|(later, _)| seen.both(*first, *later));
    Some(*first)
}

fn making_refusal(trial: &Trial, seen: &mut Seen) -> u32 {
    let (reals, wholes) = (trial.thresholds.reals(), trial.thresholds.wholes());
    let is_within = reals.iter().all(|x| *x >= 0.0 && *x <= 10_000.0)
        && wholes[..9].iter().all(|n| *n <= 1_000_000)
        && wholes[9..].iter().all(|n| *n <= 10_000_000);
    let is_day = are_hours(&trial.windows()) && [5, 15, 60].contains(&trial.minutes);
    let refusal = first(&[3, 12], &[!is_within, !is_day], seen).unwrap_or(0);
    seen.making(trial, refusal);
    refusal
}

fn are_hours(windows: &[[u32; 2]]) -> bool {
    (1..=4).contains(&windows.len())
        && windows.iter().all(|[from, to]| from < to && *to <= DAY)
        && windows.windows(2).all(|two| two[0][1] <= two[1][0])
}
