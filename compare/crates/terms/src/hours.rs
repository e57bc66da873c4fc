//! Opening hours: those that a layer takes, and others.

use crate::told::DAY;
use inputs::rng::Rng;

/// The lengths of windows: around those of terms, and short ones.
const LENGTHS: [u32; 18] = [
    1, 1, 2, 3, 4, 5, 6, 9, 14, 15, 16, 31, 59, 60, 61, 119, 120, 125,
];

/// Where the first window may begin.
const FIRST: [u32; 6] = [0, 0, 1, 250, 570, 1300];

/// Minutes between two windows; none where they touch.
const GAPS: [u32; 8] = [0, 0, 0, 1, 1, 2, 45, 300];

/// Good hours of one to four windows.
pub fn random(rng: &mut Rng) -> Vec<u32> {
    match rng.below(8) {
        0 => vec![0, DAY],
        1 => vec![570, 690, 780, 900],
        _ => windows(rng),
    }
}

fn windows(rng: &mut Rng) -> Vec<u32> {
    let mut numbers = Vec::new();
    let mut from = rng.pick(&FIRST);
    for _ in 0..rng.between(1, 4) {
        if from >= DAY {
            break;
        }
        let to = match rng.below(8) {
            0 => DAY,
            1 => rng.between(from as usize + 1, DAY as usize) as u32,
            _ => DAY.min(from + rng.pick(&LENGTHS)),
        };
        numbers.extend([from, to]);
        from = to + rng.pick(&GAPS);
    }
    numbers
}

/// Makes good hours bad, or others that are good.
pub fn spoil(rng: &mut Rng, hours: &mut Vec<u32>) {
    let at = rng.below(hours.len());
    match rng.below(6) {
        0 => hours.clear(),
        1 => hours.truncate(at),
        2 => hours.extend([1440, 1440]),
        3 => hours[at] = rng.pick(&[0, 1, 1439, 1440, 1441, 1 << 31, u32::MAX]),
        4 => hours.swap(at, 0),
        _ => hours[at] = hours[at].wrapping_add(rng.pick(&[1, u32::MAX, 2, 60])),
    }
}

/// Numbers at and around the limits, of which all short lists are tried.
const NUMBERS: [u32; 6] = [0, 1, 700, 1439, 1440, 1441];

/// Longer lists, good and bad.
const LISTS: [&[u32]; 34] = [
    &[0, u32::MAX],
    &[u32::MAX, u32::MAX],
    &[u32::MAX, 0],
    &[1 << 31, 1440],
    &[u32::MAX],
    // Good ones in 16 bits.
    &[65_536, 66_000],
    &[0, 66_976],
    &[570, 690, 780, 900],
    &[570, 690, 690, 900],
    &[570, 690, 689, 900],
    &[780, 900, 570, 690],
    &[570, 690, 780, 900, 901],
    &[570, 690, 780, 900, 901, 902],
    &[570, 690, 780, 900, 900, 902],
    &[570, 690, 780, 900, 899, 902],
    &[570, 690, 780, 900, 0, 1],
    &[570, 690, 690, 780, 780, 900],
    &[570, 690, 690, 690, 780, 900],
    &[570, 690, 780, 900, 902, 902],
    &[570, 690, 780, 900, 1000, 1441],
    &[0, 1, 2, 3, 4, 5, 6],
    &[0, 1, 2, 3, 4, 5, 6, 7],
    &[0, 1, 1, 2, 2, 3, 3, 4],
    &[0, 1, 2, 3, 4, 5, 4, 7],
    &[0, 1, 2, 3, 4, 5, 6, 6],
    &[0, 1, 2, 3, 4, 5, 6, 1440],
    &[0, 1, 2, 3, 4, 5, 6, 1441],
    &[0, 400, 401, 800, 801, 1200, 1201, 1440],
    &[0, 1, 2, 3, 4, 5, 6, 7, 8],
    &[0, 1, 2, 3, 4, 5, 6, 7, 0],
    &[0, 1, 2, 3, 4, 5, 6, 7, 8, 9],
    &[0, 1, 2, 3, 4, 5, 6, 7, 0, 0],
    &[0, 1, 2, 3, 4, 5, 6, 7, 8, 9, 10, 11],
    &[0, 1, 2, 3, 4, 5, 6, 7, 8, 9, 10, 11, 12, 13, 14, 15, 16],
];

/// Hours for makings: all lists of up to four of the numbers, and the longer ones.
pub fn all() -> Vec<Vec<u32>> {
    let mut lists: Vec<Vec<u32>> = vec![Vec::new()];
    let mut start = 0;
    for _ in 0..4 {
        let end = lists.len();
        for i in start..end {
            let with = NUMBERS.map(|number| [&lists[i][..], &[number]].concat());
            lists.extend(with);
        }
        start = end;
    }
    lists.extend(LISTS.map(<[u32]>::to_vec));
    lists
}
