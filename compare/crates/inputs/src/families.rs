//! The random families: each fills a case anew from a random stream.

use crate::Case;
use crate::boundaries;
use crate::hostile::{perturb, spoil, spoil_bodies};
use crate::middles;
use crate::planted::{planted, planted_tower};
use crate::rng::Rng;
use crate::tenths;
use crate::thresholds;
use crate::walk::{Walk, small_bar};
use jcc_types::{Bar, LEAST_P};

/// A random family.
pub struct Family {
    pub name: &'static str,
    pub fill: fn(&mut Rng, &mut Case),
    /// Its part of a run in percent. The parts add up to more than a hundred: calls in which the
    /// repository has no say don't count as compared with it.
    pub percent: u64,
    /// Whether its prices may be NaN.
    pub has_nan: bool,
}

const fn family(name: &'static str, fill: fn(&mut Rng, &mut Case), percent: u64) -> Family {
    Family {
        name,
        fill,
        percent,
        has_nan: false,
    }
}

const fn with_nan(family: Family) -> Family {
    Family {
        has_nan: true,
        ..family
    }
}

pub const FAMILIES: [Family; 10] = [
    family("walks", walks, 15),
    family("small", small, 14),
    family("long", long, 5),
    family("planted", planted, 28),
    family("boundaries", boundaries, 10),
    with_nan(family("hostile", hostile, 13)),
    family("offsets", offsets, 6),
    family("thresholds", thresholds, 11),
    with_nan(family("corners", corners, 3)),
    family("tenths", tenths::edges, 5),
];

/// The place of the family of long histories.
pub const LONG: usize = 2;

/// The families whose histories, one after the other, make the history of a box.
pub const PIECES: [Family; 9] = [
    family("walks", walks, 15),
    family("small", small, 10),
    family("planted", planted, 20),
    family("boundaries", boundaries, 10),
    with_nan(family("hostile", hostile, 15)),
    family("thresholds", thresholds, 10),
    with_nan(family("corners", corners, 5)),
    with_nan(family("middles", middles::changed, 10)),
    family("tenths", tenths::edges, 5),
];

/// Lengths at and around those at which a rule begins, the quarter, 12's gate and a box's 64.
const LIMITS: [usize; 27] = [
    0, 1, 2, 3, 4, 5, 6, 7, 8, 9, 10, 11, 12, 13, 15, 16, 17, 20, 21, 22, 23, 24, 25, 63, 64, 65,
    66,
];

fn length(rng: &mut Rng) -> usize {
    if rng.one_in(3) {
        rng.pick(&LIMITS)
    } else {
        rng.between(0, 70)
    }
}

/// The newest bar, one within the history, one at or just past its oldest bar.
fn push_offsets(rng: &mut Rng, case: &mut Case) {
    let len = case.bars.len();
    case.offsets.push(1);
    case.offsets.push(rng.between(1, len + 2) as u32);
    case.offsets
        .push(rng.between(len.max(3) - 2, len + 1) as u32);
}

fn walks(rng: &mut Rng, case: &mut Case) {
    let count = length(rng);
    push_walk(rng, count, case);
    push_offsets(rng, case);
}

fn push_walk(rng: &mut Rng, count: usize, case: &mut Case) {
    let mut walk = Walk::random(rng);
    for _ in 0..count {
        case.bars.push(walk.bar(rng));
    }
}

fn small(rng: &mut Rng, case: &mut Case) {
    let base = rng.pick(&[-3, 0, 0, 1, 1, 10, 100]);
    let span = rng.between(2, 9) as i32;
    let regular = rng.one_in(2);
    for _ in 0..length(rng) {
        case.bars.push(small_bar(rng, base, span, regular));
    }
    push_offsets(rng, case);
}

/// Some thousand bars, judged in many places.
fn long(rng: &mut Rng, case: &mut Case) {
    let count = rng.between(1000, 4000);
    push_walk(rng, count, case);
    case.offsets.extend([1, count as u32, count as u32 + 1]);
    for _ in 0..200 {
        case.offsets.push(rng.between(1, count) as u32);
    }
}

/// One of the other kinds of history.
fn any(rng: &mut Rng, case: &mut Case) {
    match rng.below(4) {
        0 => walks(rng, case),
        1 => small(rng, case),
        _ => planted(rng, case),
    }
}

/// A history on one side of a boundary, if one is found.
fn boundaries(rng: &mut Rng, case: &mut Case) {
    if rng.one_in(2) {
        any(rng, case);
    } else {
        thresholds(rng, case);
    }
    if let Some(mut found) = boundaries::find(rng, case) {
        let price = rng.pick(&found.prices);
        found.lay(price);
        *case = found.case;
    }
}

fn hostile(rng: &mut Rng, case: &mut Case) {
    any(rng, case);
    spoil(rng, &mut case.bars);
    if rng.one_in(4) {
        perturb(rng, &mut case.bars, 0);
    }
}

/// At, around and far beyond the history's length, and where p is at a rule's least.
fn offsets(rng: &mut Rng, case: &mut Case) {
    any(rng, case);
    let len = case.bars.len() as u32;
    case.offsets.clear();
    case.offsets.extend([1, 2, len.max(1), len.max(2) - 1]);
    case.offsets.extend([len + 1, len + 2]);
    case.offsets.extend([1 << 31, (1 << 31) - 1, u32::MAX]);
    case.offsets.push(rng.word() as u32 | 1);
    for p in LEAST_P {
        let offset = (len + 1).saturating_sub(p as u32 - 1 + rng.below(3) as u32);
        case.offsets.push(offset.max(1));
    }
}

/// Histories in or near 01's corners, of 17 and of 15.
fn corners(rng: &mut Rng, case: &mut Case) {
    if rng.one_in(2) {
        planted_tower(rng, case);
        spoil_bodies(rng, &mut case.bars);
    } else {
        push_zeros(rng, case);
    }
}

/// Highest high and lowest low zero, of either sign, and then two bars such as 15 looks for.
fn push_zeros(rng: &mut Rng, case: &mut Case) {
    let zero = |rng: &mut Rng| rng.pick(&[0.0, -0.0]);
    for _ in 0..rng.between(18, 24) {
        let high = rng.pick(&[0.0, 0.0, -0.0, -0.0, -1.0]);
        let low = rng.pick(&[0.0, 0.0, -0.0, -0.0, 1.0]);
        case.bars.push(Bar::new(zero(rng), zero(rng), high, low));
    }
    let side = rng.pick(&[1.0, -1.0]);
    let (high, low) = (zero(rng), zero(rng));
    case.bars.push(Bar::new(zero(rng), side, high, low));
    let open = side * rng.pick(&[0.0, 2.0, 1.5]);
    case.bars.push(Bar::new(open, side, zero(rng), zero(rng)));
    case.offsets.extend([1, 2]);
}

fn thresholds(rng: &mut Rng, case: &mut Case) {
    any(rng, case);
    case.thresholds = thresholds::random(rng);
    if rng.one_in(2) {
        boundaries::fit_threshold(rng, case);
    }
}

/// The histories in a share.
const SHARE: u64 = 20;

/// Some of the random histories of a family in [`PIECES`], with a stream of random numbers of their own.
#[derive(Clone, Copy)]
pub struct Share {
    pub family: usize,
    pub count: u64,
    number: u64,
    seed: u64,
}

impl Share {
    pub fn rng(&self) -> Rng {
        Rng::stream(self.seed, self.family as u64, self.number)
    }
}

/// So many random histories, each family its part of them.
pub fn shares(histories: u64, seed: u64) -> impl Iterator<Item = Share> {
    PIECES.iter().enumerate().flat_map(move |(family, f)| {
        let all = (histories * f.percent).div_ceil(100);
        (0..all.div_ceil(SHARE)).map(move |number| Share {
            family,
            count: SHARE.min(all - number * SHARE),
            number,
            seed,
        })
    })
}
