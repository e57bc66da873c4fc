//! Why a call is refused: 01's list and 02's, each kind of call with the refusals that concern it, in their
//! order.

use crate::tally::Tally;
use jcc_types::{BAR_BYTES, BAR_PRICES, MAX_BARS, MOST_OFFSET, RECOGNISERS, ROW_BYTES, Thresholds};

/// The number of the first refusal that applies to a plain call with this many bytes of bars.
pub fn refusal(recogniser: u32, offset: u32, t: &Thresholds, bytes: usize) -> Option<u32> {
    if recogniser as usize >= RECOGNISERS {
        Some(1)
    } else if offset == 0 {
        Some(2)
    } else if !within_limits(t) {
        Some(3)
    } else if !bytes.is_multiple_of(BAR_BYTES) {
        Some(4)
    } else if bytes / BAR_BYTES > MAX_BARS {
        Some(5)
    } else {
        None
    }
}

/// The first that applies to a feed of this many prices, with a sheet of this many bytes, to a box
/// that was fed some bars before.
pub fn feed_refusal(t: &Thresholds, fed: usize, prices: usize, sheet: usize) -> Option<u32> {
    first(t, fed, prices, sheet, true)
}

/// The first that applies to such a feed with a tally.
pub fn tallied_refusal(
    t: &Thresholds,
    fed: usize,
    prices: usize,
    sheet: usize,
    tally: &Tally,
) -> Option<u32> {
    first(t, fed, prices, sheet, tally.adds_up_to(fed))
}

fn first(t: &Thresholds, fed: usize, prices: usize, sheet: usize, adds_up: bool) -> Option<u32> {
    let bars = prices / BAR_PRICES;
    if !within_limits(t) {
        Some(3)
    } else if !prices.is_multiple_of(BAR_PRICES) {
        Some(4)
    } else if fed + bars > MAX_BARS || !adds_up {
        Some(5)
    } else if sheet / ROW_BYTES < bars {
        Some(6)
    } else {
        None
    }
}

/// The first that applies to a look at a box that `PlainBox::new` made: refusals 3 and 5 never do.
pub fn look_refusal(recogniser: u32, offset: u32) -> Option<u32> {
    if recogniser as usize >= RECOGNISERS {
        Some(1)
    } else if offset == 0 {
        Some(2)
    } else if offset > MOST_OFFSET {
        Some(7)
    } else {
        None
    }
}

/// NaN is outside, −0.0 inside.
pub fn within_limits(t: &Thresholds) -> bool {
    let is_real = |x: &f64| (0.0..=Thresholds::MOST_REAL).contains(x);
    let is_whole = |(i, n): (usize, u32)| n <= Thresholds::most(i);
    t.reals().iter().all(is_real) && t.wholes().into_iter().enumerate().all(is_whole)
}
