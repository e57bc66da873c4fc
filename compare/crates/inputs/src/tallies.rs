//! Tallies as an export is lent them: those of a fresh box, and others.

use jcc_types::{LABELS, RECOGNISERS, TALLY_COUNTS};

/// How many counts are lent: all of them mostly, or fewer, or more.
pub const LENGTHS: [usize; 14] = [
    TALLY_COUNTS,
    TALLY_COUNTS,
    TALLY_COUNTS,
    TALLY_COUNTS,
    0,
    1,
    LABELS.len() - 1,
    LABELS.len(),
    LABELS.len() + 1,
    TALLY_COUNTS - LABELS.len(),
    TALLY_COUNTS - 1,
    TALLY_COUNTS + 1,
    TALLY_COUNTS + LABELS.len(),
    2 * TALLY_COUNTS,
];

/// Counts of a fresh box. What stands past the last is no part of the tally, and not zero.
pub fn fresh(len: usize) -> Vec<u32> {
    let number = |at: usize| (at + 1 - TALLY_COUNTS) as u32;
    (0..len)
        .map(|at| if at < TALLY_COUNTS { 0 } else { number(at) })
        .collect()
}

/// Of so many bars, all of one label.
pub fn of_bars(count: u32) -> Vec<u32> {
    let cells: Vec<_> = (0..RECOGNISERS).map(|k| ([k, 0], count)).collect();
    with(TALLY_COUNTS, &cells)
}

/// So many counts of a fresh box, but for some cells, each by its recogniser and code.
fn with(len: usize, cells: &[([usize; 2], u32)]) -> Vec<u32> {
    let mut counts = fresh(len);
    for ([recogniser, code], count) in cells {
        if let Some(number) = counts.get_mut(recogniser * LABELS.len() + code) {
            *number = *count;
        }
    }
    counts
}

/// One bar too many in each cell alone.
fn one_too_many() -> Vec<Vec<u32>> {
    let cells = (0..RECOGNISERS).flat_map(|k| (0..LABELS.len()).map(move |code| [k, code]));
    cells.map(|cell| with(TALLY_COUNTS, &[(cell, 1)])).collect()
}

/// Numbers of one recogniser whose sum is 0 if it is held in 8, 16 or 32 bits.
fn wrapping() -> Vec<Vec<u32>> {
    const HALF: u32 = 1 << 31;
    const QUARTER: u32 = 1 << 30;
    let last = LABELS.len() - 1;
    let rows: [&[(usize, u32)]; 7] = [
        &[(0, HALF), (1, HALF)],
        &[(last - 1, HALF), (last, HALF)],
        &[(0, u32::MAX), (last, 1)],
        &[(3, QUARTER), (8, QUARTER), (20, QUARTER), (31, QUARTER)],
        &[(2, 1 << 8)],
        &[(2, 1 << 16)],
        &[(last, HALF)],
    ];
    let mut tallies = Vec::new();
    for k in 0..RECOGNISERS {
        for row in rows {
            let cells: Vec<_> = row.iter().map(|(code, n)| ([k, *code], *n)).collect();
            tallies.push(with(TALLY_COUNTS, &cells));
        }
        // The sum of all counts is 0 in 32 bits too, though no recogniser's is.
        let next = (k + 1) % RECOGNISERS;
        let halves = [([k, last], HALF), ([next, 0], HALF)];
        tallies.push(with(TALLY_COUNTS, &halves));
    }
    tallies
}

/// Slices that end within the counts, or past them, with a number in the last place that is lent, in
/// the last that is a count, and in the first that is not.
fn cut_off() -> Vec<Vec<u32>> {
    let mut tallies = Vec::new();
    for len in LENGTHS.into_iter().filter(|len| *len > 0) {
        for at in [len - 1, TALLY_COUNTS - 1, TALLY_COUNTS] {
            let cell = [at / LABELS.len(), at % LABELS.len()];
            tallies.push(with(len, &[(cell, 1)]));
        }
    }
    tallies
}

/// Tallies that a fresh box is not fed with, and some that it is.
pub fn all() -> Vec<Vec<u32>> {
    let mut tallies: Vec<Vec<u32>> = LENGTHS.map(fresh).into();
    tallies.extend([1, 2, 3, 50, 1_000_000, u32::MAX].map(of_bars));
    tallies.extend(one_too_many());
    tallies.extend(wrapping());
    tallies.extend(cut_off());
    tallies
}
