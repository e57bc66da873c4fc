//! Small lists whose answers were told by hand.

use crate::judge::Judge;
use crate::trial::Trial;
use jcc_types::{BAR_PRICES, ROW_BYTES, Thresholds};
use program::Difference;

/// A refused call's answer is this and the refusal's number.
const R: u32 = 16_777_216;

/// The number of terms' minutes, the hours, the stamps, the calls and their answers.
type Example = (
    u32,
    &'static [u32],
    &'static [u32],
    &'static [u32],
    &'static [u32],
);

const ALL_DAY: &[u32] = &[0, 1440];

/// The bytes of a sheet that is long enough for each.
const ROOM: usize = 9 * ROW_BYTES;

const EXAMPLES: [Example; 24] = [
    // A later term's bar ends a term, and so does a close.
    (5, ALL_DAY, &[0, 4, 5], &[3, 0], &[1, 1]),
    (60, &[570, 690], &[570, 629, 630, 689], &[4, 0], &[1, 1]),
    // Terms count from the opening.
    (15, &[572, 700], &[572, 586, 587], &[1, 1, 1], &[0, 0, 1]),
    // A window's last term is shorter.
    (5, &[10, 17], &[10, 14, 15, 16, 1450], &[5], &[2]),
    // Windows that touch have terms of their own.
    (60, &[0, 7, 7, 14], &[6, 7], &[2], &[1]),
    (60, &[0, 14], &[6, 7], &[2], &[0]),
    // So has each day.
    (60, ALL_DAY, &[1439, 1440], &[2], &[1]),
    (60, &[10, 20], &[12, 1452], &[2, 0], &[1, 1]),
    // Terms without a bar give none.
    (5, ALL_DAY, &[0, 5000], &[2, 0, 0], &[1, 1, 0]),
    // After a close a bar begins a term bar of its own; the stamp is kept.
    (5, ALL_DAY, &[0, 1, 2], &[2, 0, 1, 0], &[0, 1, 0, 1]),
    (
        5,
        ALL_DAY,
        &[3, 3, 4],
        &[1, 0, 1, 1, 0],
        &[0, 1, R + 10, 0, 1],
    ),
    // Outside on both sides.
    (
        5,
        &[5, 10],
        &[10, 4, 5, 9],
        &[1, 1, 2, 0],
        &[R + 11, R + 11, 0, 1],
    ),
    // 10 before 11 for one bar, otherwise bar by bar.
    (5, &[5, 10], &[9, 4], &[1, 1], &[0, R + 10]),
    (5, &[5, 10], &[9, 11, 10], &[3], &[R + 11]),
    (5, &[5, 10], &[9, 9, 11], &[3, 0], &[R + 10, 0]),
    // Nothing of a refused run is kept.
    (5, ALL_DAY, &[5, 6, 6, 5], &[3, 1, 0], &[R + 10, 0, 1]),
    // The greatest stamp is minute 255 of its day.
    (5, &[0, 256], &[u32::MAX - 1, u32::MAX], &[2, 0], &[1, 1]),
    (
        5,
        &[0, 255],
        &[u32::MAX - 1, u32::MAX],
        &[1, 1, 0],
        &[0, R + 11, 1],
    ),
    // The first stamp may be 0; a close may come before any bar.
    (5, ALL_DAY, &[0, 0], &[0, 1, 1, 0], &[0, 0, R + 10, 1]),
    // What no call takes is left.
    (5, ALL_DAY, &[1, 9, 17], &[1, 0], &[0, 1]),
    (5, ALL_DAY, &[1, 9, 17], &[], &[]),
    // A run beyond the end takes what is left.
    (5, ALL_DAY, &[1, 9, 17], &[1 << 30, 0], &[2, 1]),
    (5, ALL_DAY, &[1, 9, 17], &[1, u32::MAX, 0], &[0, 2, 1]),
    // A run of no bars, where all are passed.
    (5, ALL_DAY, &[7], &[1, 9, 0, 9, 0], &[0, 0, 1, 0, 0]),
];

/// The number of stamps and of prices, the bytes of the sheet, the calls and their answers; terms of 5
/// minutes, all day.
type Shortened = (usize, usize, usize, &'static [u32], &'static [u32]);

const SHORTENED: [Shortened; 9] = [
    // Another number of stamps than bars; those that are passed are gone.
    (3, 8, ROOM, &[3, 1, 0], &[R + 4, 0, 0]),
    (3, 8, ROOM, &[2, 1, 0], &[0, R + 4, 1]),
    (2, 12, ROOM, &[2, 1, 0], &[0, R + 4, 1]),
    // A broken bar, with a stamp and without.
    (2, 7, ROOM, &[1, 1, 0], &[0, R + 4, 1]),
    (2, 9, ROOM, &[3, 0], &[R + 4, 0]),
    (2, 9, ROOM, &[2, 1, 0], &[0, R + 4, 1]),
    // 36 bytes for each bar of a run, and for a close.
    (3, 12, 35, &[3, 0, 3], &[R + 6, R + 6, 0]),
    (3, 12, 71, &[2, 1, 0, 0], &[R + 6, 0, 1, R + 6]),
    // 4 before 6.
    (3, 8, 0, &[3], &[R + 4]),
];

pub fn all(judge: &mut Judge) -> Result<(), Difference> {
    for (minutes, hours, stamps, calls, answers) in EXAMPLES {
        let prices = stamps.len() * BAR_PRICES;
        let trial = trial(minutes, hours, stamps, prices, ROOM, calls);
        try_example(judge, trial, answers)?;
    }
    for (stamps, prices, sheet, calls, answers) in SHORTENED {
        let stamps: Vec<u32> = (0..stamps as u32).collect();
        let trial = trial(5, ALL_DAY, &stamps, prices, sheet, calls);
        try_example(judge, trial, answers)?;
    }
    Ok(())
}

fn try_example(judge: &mut Judge, trial: Trial, answers: &[u32]) -> Result<(), Difference> {
    let (agreed, trial) = judge.try_alone(trial)?;
    let told = agreed.told.answers.iter().map(|answer| answer.number());
    if told.clone().eq(answers.iter().copied()) {
        return Ok(());
    }
    let told: Vec<u32> = told.collect();
    let text = format!("the judge tells {told:?} where the answers are {answers:?}");
    Err(Difference(format!("{text}\n{trial}")))
}

fn trial(
    minutes: u32,
    hours: &[u32],
    stamps: &[u32],
    prices: usize,
    sheet: usize,
    calls: &[u32],
) -> Trial {
    let price = |i: usize| f64::from(i as u32 * 7 % 11);
    Trial {
        thresholds: Thresholds::STANDARD,
        minutes,
        hours: hours.to_vec(),
        stamps: stamps.to_vec(),
        prices: (0..prices).map(price).collect(),
        calls: calls.to_vec(),
        sheet,
        answers: calls.len(),
        nan: None,
    }
}
