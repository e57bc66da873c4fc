//! Writes a list of the repository's answers, for the program test_replay, which needs no repository:
//! `stdin` with the calls and `stdout` with one answer a line, in the folder that is given.
//!
//! Refusals, which the repository doesn't have, and the answers where it has no say, in 01's two
//! corners and between 02's multiples of ten, come from these documents through the plain port.

mod answers;
mod cover;

use answers::Answers;
use inputs::boundaries::{self, Boundary};
use inputs::families::{FAMILIES, LONG};
use inputs::rng::Rng;
use inputs::thresholds::NAMED_TENTHS;
use inputs::{Case, known, middles, refusals, tenths};
use jcc_types::{RECOGNISERS, Thresholds};
use std::collections::BTreeSet;
use std::env;
use std::path::Path;
use std::process::ExitCode;

const SEED: u64 = 1;

/// The most bars of a history in the list.
const MOST_BARS: usize = 80;

/// How many cases are searched for boundaries.
const SEARCHED: u64 = 200_000;

/// How many bars a recogniser reads one by one; to those before them it does the same.
const SINGLE: [usize; RECOGNISERS] = [1, 2, 2, 2, 5, 6, 3, 2, 1, 2, 2, 3, 3, 2, 5, 3, 3, 5];

/// The oldest bar that a recogniser reads, counted back from the judged one, 12's gate aside.
const OLDEST: [usize; RECOGNISERS] = [20, 20, 12, 2, 8, 6, 3, 20, 20, 2, 2, 3, 3, 2, 5, 20, 3, 9];

/// Histories of each random family beyond those that something else asked for.
const HISTORIES: usize = 10;

/// Streams of random numbers beside those of the families.
const BOUNDARY_STREAM: u64 = 100;
const LENGTH_STREAM: u64 = 101;
const OFFSET_STREAM: u64 = 102;

/// Parts of the families' streams that nothing else here uses.
const SHARE_PARTS: u64 = 1 << 32;

fn main() -> ExitCode {
    let Some(folder) = env::args().nth(1) else {
        eprintln!("vectors FOLDER");
        return ExitCode::FAILURE;
    };
    program::main("vectors", || write(&folder))
}

fn write(folder: &str) -> Result<(), String> {
    let mut list = Answers::new();
    known::all().iter().for_each(|k| list.add_known(k));
    add_lengths(&mut list);
    add_boundaries(&mut list);
    add_pairs(&mut list);
    add_families(&mut list);
    add_middles(&mut list);
    add_tenths(&mut list);
    add_refusals(&mut list);
    list.write(Path::new(folder))
        .map_err(|e| format!("{folder}: {e}"))?;
    println!("{}", list.summary());
    Ok(())
}

/// Fills a case from a family; false if it is too long for the list.
fn fill(family: usize, part: u64, case: &mut Case) -> bool {
    let mut rng = Rng::stream(SEED, family as u64, part);
    case.clear();
    (FAMILIES[family].fill)(&mut rng, case);
    case.bars.len() <= MOST_BARS
}

/// Histories that get another answer with their oldest bar than without it, both ways: one for each
/// recogniser and number of bars up to the judged one. For 12 the length of the history counts too.
fn add_lengths(list: &mut Answers) {
    let mut seen = BTreeSet::new();
    let mut case = Case::new();
    for part in 0..SEARCHED / 10 {
        if !fill(part as usize % FAMILIES.len(), part, &mut case) {
            continue;
        }
        let mut rng = Rng::stream(SEED, LENGTH_STREAM, part);
        let offset = rng.pick(&case.offsets);
        for k in 0..RECOGNISERS {
            for count in boundaries::lengths(k, offset, &case) {
                let p = count + 1 - offset as usize;
                if seen.insert((k, p, k == 12 && count == 24)) {
                    list.add(&newest(&case, count, offset), &[k]);
                    list.add(&newest(&case, count - 1, offset), &[k]);
                }
            }
        }
    }
}

/// The newest bars of a case, at one offset.
fn newest(case: &Case, count: usize, offset: u32) -> Case {
    Case {
        bars: case.bars[case.bars.len() - count..].to_vec(),
        thresholds: case.thresholds,
        offsets: vec![offset],
    }
}

/// Both sides of the first boundary of each kind that turns up, on as few bars as show it.
fn add_boundaries(list: &mut Answers) {
    let mut seen = BTreeSet::new();
    let mut case = Case::new();
    for part in 0..SEARCHED {
        let mut rng = Rng::stream(SEED, BOUNDARY_STREAM, part);
        if fill(rng.below(FAMILIES.len()), part, &mut case)
            && let Some(mut found) = boundaries::find(&mut rng, &case)
            && seen.insert(kind(&found))
        {
            found.shrink();
            for price in found.prices {
                found.lay(price);
                list.add(&found.case, &[found.recogniser]);
            }
        }
    }
}

/// Boundaries that are alike: the recogniser, the price and the two answers. Bars that are not read
/// one by one count as one, but for the oldest.
fn kind(found: &Boundary) -> (usize, usize, [u32; 2]) {
    let k = found.recogniser;
    let (bar, price) = (found.distance() / 4, found.distance() % 4);
    if bar < SINGLE[k] {
        let [a, b] = found.answers;
        (k, found.distance(), [a.min(b), a.max(b)])
    } else {
        let far = if bar + 1 == OLDEST[k] { bar } else { SINGLE[k] };
        (k, 4 * far + price, [0; 2])
    }
}

/// Pairs that are not in the list often enough yet, from all families in turn.
fn add_pairs(list: &mut Answers) {
    let mut case = Case::new();
    for part in 0.. {
        if list.cover.is_complete() {
            return;
        }
        assert!(part < 1_000_000, "no input for {:?}", list.cover.missing());
        for family in 0..FAMILIES.len() {
            if fill(family, part, &mut case) {
                add_if_wanted(list, &case);
            }
        }
    }
}

/// Adds all recognisers at the first offset at which one gives a pair that is wanted.
fn add_if_wanted(list: &mut Answers, case: &Case) {
    list.judge(case);
    for offset in &case.offsets {
        if (0..RECOGNISERS).any(|k| list.wants(k, *offset)) {
            let mut wanted = case.clone();
            wanted.offsets = vec![*offset];
            list.add_all(&wanted);
            return;
        }
    }
}

/// A share of every random family with short histories, one or two offsets a history.
fn add_families(list: &mut Answers) {
    let mut case = Case::new();
    for family in (0..FAMILIES.len()).filter(|f| *f != LONG) {
        let mut parts = SHARE_PARTS..;
        for _ in 0..HISTORIES {
            let part = parts.find(|part| fill(family, *part, &mut case));
            let mut rng = Rng::stream(SEED, OFFSET_STREAM, part.expect("parts don't end"));
            let count = rng.between(1, 2);
            let offsets = (0..count).map(|_| rng.pick(&case.offsets)).collect();
            case.offsets = offsets;
            list.add_all(&case);
        }
    }
}

/// A window of 4 or 17 for each of their labels, as planted and with some of its changes.
fn add_middles(list: &mut Answers) {
    for window in middles::listed() {
        list.add_known(&window.known());
        for case in window.listed_cases() {
            list.add(&case, &[window.recogniser()]);
        }
    }
}

/// Both sides of a doji's edge with thresholds in tenths, the last of which is refused.
fn add_tenths(list: &mut Answers) {
    let refused = Thresholds::MOST_TENTHS + 1;
    for th in NAMED_TENTHS.into_iter().chain([refused]) {
        for case in tenths::sides(th) {
            list.add(&case, &tenths::RECOGNISERS);
        }
    }
}

/// Refusals 1 to 3 alone and together, and their neighbours that are answered.
fn add_refusals(list: &mut Answers) {
    let mut case = Case::new();
    fill(0, 0, &mut case);
    list.history(&case);
    for t in refusals::thresholds() {
        case.thresholds = t;
        list.thresholds(&case);
        for (recogniser, offset) in [(0, 1), (8, 0), (18, 1)] {
            list.call(recogniser, offset, &case);
        }
    }
    for recogniser in refusals::RECOGNISERS {
        for offset in refusals::OFFSETS {
            list.call(recogniser, offset, &case);
        }
    }
}
