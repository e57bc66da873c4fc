//! How a history is cut into feeds: the sizes of the feeds in bars. A size of 0 is an empty feed, a
//! size beyond what is left takes what is left, and what the sizes leave is one last feed.

use crate::rng::Rng;

/// Where a box changes: the first bar, the quarter's 22, 12's gate, and the kept bars.
const PLACES: [u32; 8] = [1, 21, 22, 23, 24, 63, 64, 65];

/// All at once, one bar at a time, one cut at each of the places, and random ones.
pub fn all(rng: &mut Rng, count: usize) -> Vec<Vec<u32>> {
    let mut cuts = vec![Vec::new(), vec![1; count]];
    cuts.extend(places_within(count).map(|place| vec![place]));
    cuts.extend((0..6).map(|_| random(rng, count)));
    cuts
}

/// Cuts of any kind.
pub fn random(rng: &mut Rng, count: usize) -> Vec<u32> {
    match rng.below(6) {
        0 => at_places(rng, count),
        1 => alike(rng, count),
        2 => beyond(rng, count),
        3 => any_sizes(rng, count, 3),
        4 => any_sizes(rng, count, 70),
        _ => with_empty_feeds(rng, count),
    }
}

fn places_within(count: usize) -> impl Iterator<Item = u32> {
    PLACES.into_iter().filter(move |c| *c as usize <= count)
}

/// Cuts at some of the places.
fn at_places(rng: &mut Rng, count: usize) -> Vec<u32> {
    let chosen: Vec<u32> = places_within(count).filter(|_| rng.one_in(2)).collect();
    let before = [0].into_iter().chain(chosen.iter().copied());
    chosen
        .iter()
        .zip(before)
        .map(|(at, from)| at - from)
        .collect()
}

/// Feeds of one size.
fn alike(rng: &mut Rng, count: usize) -> Vec<u32> {
    let size = rng.between(1, 70);
    vec![size as u32; count.div_ceil(size)]
}

/// A size that asks for more than there is, with others before and after it.
fn beyond(rng: &mut Rng, count: usize) -> Vec<u32> {
    let first = rng.between(0, count) as u32;
    let size = rng.pick(&[count as u32 + 1, 1_000_001, 1 << 31, u32::MAX]);
    vec![first, size, 0, 1]
}

/// Sizes up to the most; sometimes bars are left for the last feed.
fn any_sizes(rng: &mut Rng, count: usize, most: usize) -> Vec<u32> {
    let end = if rng.one_in(4) {
        rng.between(0, count)
    } else {
        count
    };
    let mut sizes = Vec::new();
    let mut fed = 0;
    while fed < end {
        let size = rng.between(1, most);
        sizes.push(size as u32);
        fed += size;
    }
    sizes
}

/// Empty feeds before, between and after the others, several in a row.
fn with_empty_feeds(rng: &mut Rng, count: usize) -> Vec<u32> {
    let mut sizes = Vec::new();
    let others = any_sizes(rng, count, 40);
    for size in others.into_iter().map(Some).chain([None]) {
        let empty = rng.below(3);
        sizes.resize(sizes.len() + empty, 0);
        sizes.extend(size);
    }
    sizes
}
