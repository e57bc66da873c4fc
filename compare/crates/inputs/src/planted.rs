//! Histories with a pattern planted in them, so that every label of every recogniser appears.
//!
//! A pattern is a few bars around a base price. It stands in a band of other bars, low, in the
//! middle or high, since several labels depend on that; further bars may follow it.

use crate::hostile::perturb;
use crate::rng::Rng;
use crate::{Case, walk::small_bar};
use jcc_types::Bar;

/// The band's prices: whole numbers from `BAND` on.
const BAND: i32 = 100;
const BAND_SPAN: i32 = 40;

/// The most bars after the judged one: one more than a look will reach back.
const MOST_AFTER: usize = 43;

/// Pushes a pattern around a base price.
type Pattern = fn(&mut Rng, f64, &mut Vec<Bar>);

const PATTERNS: [Pattern; 18] = [
    umbrella,
    engulfing,
    dark_cloud,
    piercing,
    three_methods,
    three_methods_of_six,
    star,
    separation,
    candle,
    harami,
    tweezers,
    two_crows,
    three_crows,
    doji,
    three_doji,
    counterattack,
    gap,
    tower,
];

/// A history with one planted pattern, and the offsets that judge it and its neighbours.
pub fn planted(rng: &mut Rng, case: &mut Case) {
    let pattern = PATTERNS[rng.below(PATTERNS.len())];
    let before = if rng.one_in(3) {
        rng.between(0, 24)
    } else {
        rng.between(16, 30)
    };
    let after = match rng.below(4) {
        0 | 1 => 0,
        2 => rng.between(1, 3),
        _ => rng.between(1, MOST_AFTER),
    };
    plant(rng, pattern, [before, after], case);
    scale(rng, &mut case.bars);
}

/// A tower as the newest bars, unscaled.
pub fn planted_tower(rng: &mut Rng, case: &mut Case) {
    let before = rng.between(0, 24);
    plant(rng, tower, [before, 0], case);
}

/// A pattern with some bars of the band before and after it.
fn plant(rng: &mut Rng, pattern: Pattern, [before, after]: [usize; 2], case: &mut Case) {
    let base = rng.pick(&[88.0, 96.0, 100.0, 118.0, 120.0, 134.0, 140.0, 150.0]);
    push_band(rng, before, &mut case.bars);
    pattern(rng, base, &mut case.bars);
    for _ in 0..rng.pick(&[0, 0, 1, 1, 2, 3]) {
        perturb(rng, &mut case.bars, before);
    }
    push_band(rng, after, &mut case.bars);
    let judged = after as u32 + 1;
    case.offsets.extend([judged, judged + 1]);
    if judged > 1 {
        case.offsets.push(judged - 1);
    }
}

fn push_band(rng: &mut Rng, count: usize, bars: &mut Vec<Bar>) {
    // A narrow band makes the pattern stand out, a wide one takes it in.
    let span = rng.pick(&[4, BAND_SPAN, BAND_SPAN]);
    let base = BAND + (BAND_SPAN - span) / 2;
    for _ in 0..count {
        bars.push(small_bar(rng, base, span, true));
    }
}

/// Mostly as they are; sometimes in other units, where products are rounded.
fn scale(rng: &mut Rng, bars: &mut [Bar]) {
    let factor = rng.pick(&[1.0, 1.0, 1.0, 1.0, 1.0, 0.01, 0.1, 10.0, 1.0 / 3.0]);
    for bar in bars {
        *bar = Bar::from_prices(bar.prices().map(|price| price * factor));
    }
}

/// Upside down about a base price: high and low change places.
pub(crate) fn mirror(bars: &mut [Bar], base: f64) {
    for bar in bars {
        let [open, close, high, low] = bar.prices().map(|price| 2.0 * base - price);
        *bar = Bar::new(open, close, low, high);
    }
}

/// Half of the time upside down.
fn maybe_mirror(rng: &mut Rng, bars: &mut [Bar], base: f64) {
    if rng.one_in(2) {
        mirror(bars, base);
    }
}

/// A bar around a base price, in 01's order of prices.
pub(crate) fn at(base: f64, open: f64, close: f64, high: f64, low: f64) -> Bar {
    Bar::new(base + open, base + close, base + high, base + low)
}

/// The same bar with open and close exchanged, half of the time.
fn either_way(rng: &mut Rng, bar: Bar) -> Bar {
    if rng.one_in(2) {
        Bar::new(bar.close, bar.open, bar.high, bar.low)
    } else {
        bar
    }
}

/// 0: a long lower shadow.
fn umbrella(rng: &mut Rng, base: f64, bars: &mut Vec<Bar>) {
    let body = rng.whole(1, 4);
    let lower = body * 2.0 + rng.whole(0, 6);
    let upper = rng.pick(&[0.0, 0.125, 0.25]);
    bars.push(either_way(rng, at(base, 0.0, body, body + upper, -lower)));
}

/// 1: a bar around the one before, sometimes with a high or low that hides it.
fn engulfing(rng: &mut Rng, base: f64, bars: &mut Vec<Bar>) {
    let start = bars.len();
    bars.push(at(base, 1.0, 2.0, 3.0, 0.0));
    let (open, close) = (-rng.whole(1, 3), 3.0 + rng.whole(1, 3));
    let high = if rng.one_in(4) {
        3.0
    } else {
        close + rng.whole(0, 2)
    };
    let low = if rng.one_in(4) {
        0.0
    } else {
        open - rng.whole(0, 2)
    };
    bars.push(at(base, open, close, high, low));
    maybe_mirror(rng, &mut bars[start..], base);
}

/// 2: a strong rise, then an open above it and a close back inside.
fn dark_cloud(rng: &mut Rng, base: f64, bars: &mut Vec<Bar>) {
    let rise = (base * 0.05).round() + rng.whole(0, 12);
    let high = rise + rng.whole(0, 1);
    bars.push(at(base, 0.0, rise, high, -1.0));
    let close = (rise / 2.0).floor() - rng.whole(0, 2);
    bars.push(at(base, high + 1.0, close, high + 2.0, close - 1.0));
}

/// 3: a strong fall, then an open below it and a close back inside.
fn piercing(rng: &mut Rng, base: f64, bars: &mut Vec<Bar>) {
    let fall = rng.whole(2, 10);
    bars.push(at(base, fall, 0.0, fall + 1.0, -1.0));
    let close = (fall / 2.0).ceil() + rng.whole(0, 2);
    bars.push(at(base, -2.0, close, close + 1.0, -3.0));
}

/// 4: a rise, two to seven small falls inside it, a rise beyond. Closes between that are below
/// their lows leave the first bar's direction to its own condition.
fn three_methods(rng: &mut Rng, base: f64, bars: &mut Vec<Bar>) {
    let start = bars.len();
    let irregular = rng.one_in(6);
    let first = if irregular { rng.whole(-2, 4) } else { 4.0 };
    bars.push(at(base, 0.0, first, 5.0, -1.0));
    for _ in 0..rng.between(2, 7) {
        let close = if irregular {
            -3.0
        } else {
            rng.pick(&[2.0, 2.5])
        };
        let high = 6.0 + rng.pick(&[0.0, 0.0, 0.5, 1.0]);
        let low = rng.pick(&[0.5, 1.0, 1.5]);
        bars.push(at(base, 3.0, close, high, low));
    }
    bars.push(at(base, 3.0, 7.0 + rng.whole(1, 3), 11.0, 2.0));
    maybe_mirror(rng, &mut bars[start..], base);
}

/// 5: six bars, the second and the last strong.
fn three_methods_of_six(rng: &mut Rng, base: f64, bars: &mut Vec<Bar>) {
    let strong = (base * 0.05).ceil() + rng.whole(0, 4);
    let top = strong + rng.whole(1, 4);
    bars.push(at(base, 1.0, 0.0, 2.0, -1.0));
    let rising = rng.one_in(2);
    if rising {
        bars.push(at(base, 1.0, strong, top, 0.0));
    } else {
        bars.push(at(base, 1.0, -strong, top, -strong - 1.0));
    }
    // The highs of the three between decide v1.
    let between = if rng.one_in(3) { top + 1.0 } else { top - 1.0 };
    for _ in 0..3 {
        bars.push(at(
            base,
            1.0,
            0.0,
            between - rng.whole(0, 1),
            -rng.whole(1, 3),
        ));
    }
    let far = 2.0 * strong + 6.0;
    if rising {
        bars.push(at(base, rng.whole(0, 2), far, far + 1.0, 0.0));
    } else {
        bars.push(at(base, -rng.whole(0, 2), -far, 1.0, -far - 1.0));
    }
}

/// 6: a fall, a small bar below, a rise.
fn star(rng: &mut Rng, base: f64, bars: &mut Vec<Bar>) {
    let start = bars.len();
    bars.push(at(base, 10.0, 5.0, 11.0, 4.0));
    let middle = rng.pick(&[1.0, 1.0, 2.0, 2.5, 3.5]);
    bars.push(at(base, 1.0, middle, 4.0, 0.0));
    bars.push(at(base, 4.0, 4.0 + rng.whole(3, 8), 13.0, rng.whole(0, 3)));
    maybe_mirror(rng, &mut bars[start..], base);
}

/// 7: equal opens, then a close beyond the bar before, against its direction.
fn separation(rng: &mut Rng, base: f64, bars: &mut Vec<Bar>) {
    let start = bars.len();
    bars.push(at(base, 0.0, rng.whole(1, 5), 6.0, -0.5));
    let close = -rng.pick(&[0.5, 1.0, 1.5, 2.0, 3.0, 4.0]);
    bars.push(at(base, 0.0, close, 1.0, close - rng.whole(0, 1)));
    maybe_mirror(rng, &mut bars[start..], base);
}

/// 8: a long upper shadow, hardly a lower one.
fn candle(rng: &mut Rng, base: f64, bars: &mut Vec<Bar>) {
    let body = rng.whole(1, 4);
    let upper = rng.pick(&[0.0, 0.5, 4.0, 6.0, 8.0]);
    let lower = rng.pick(&[0.0, 0.125, 0.5]);
    bars.push(either_way(rng, at(base, 0.0, body, body + upper, -lower)));
}

/// 9: a long body, then a small one inside it.
fn harami(rng: &mut Rng, base: f64, bars: &mut Vec<Bar>) {
    let start = bars.len();
    bars.push(at(base, 0.0, 10.0, 11.0, -1.0));
    let inner = at(base, rng.whole(3, 4), rng.whole(5, 6), 10.0, 1.0);
    bars.push(either_way(rng, inner));
    maybe_mirror(rng, &mut bars[start..], base);
}

/// 10: two equal lows or highs.
fn tweezers(rng: &mut Rng, base: f64, bars: &mut Vec<Bar>) {
    let older = at(base, 0.0, rng.whole(1, 6), 9.0, -1.0);
    bars.push(either_way(rng, older));
    let low = rng.pick(&[-1.0, -1.0, -2.0, 0.0, -6.0]);
    let high = rng.pick(&[9.0, 9.0, 10.0, 8.0, 14.0]);
    bars.push(at(base, rng.whole(0, 4), rng.whole(0, 7), high, low));
}

/// 11: a long rise, a fall above it, a further fall.
fn two_crows(rng: &mut Rng, base: f64, bars: &mut Vec<Bar>) {
    bars.push(at(base, 0.0, rng.whole(1, 5), 5.0, -1.0));
    bars.push(at(base, 8.0, 7.0 - rng.whole(0, 1), 9.0, 6.0));
    bars.push(at(base, 8.0, 7.0 - rng.whole(0, 2), 9.0, 4.0));
}

/// 12: three falls; each open inside the body before it or below it.
fn three_crows(rng: &mut Rng, base: f64, bars: &mut Vec<Bar>) {
    bars.push(at(base, 12.0, 8.0, 13.0, 7.0));
    if rng.one_in(2) {
        bars.push(at(base, 10.0, 5.0, 11.0, 4.0));
    } else {
        bars.push(at(base, 7.0, 5.0, 8.0, 4.5));
    }
    if rng.one_in(2) {
        bars.push(at(base, rng.pick(&[5.0, 6.0, 7.0]), 2.0, 7.5, 1.0));
    } else {
        bars.push(at(base, 4.0, 0.0, 5.0, -1.0));
    }
}

/// A bar with nearly no body: long shadow below, above, on both sides, or short ones.
fn doji_bar(rng: &mut Rng, base: f64) -> Bar {
    let body = rng.pick(&[0.0, 0.0, 0.125]);
    let (upper, lower) = rng.pick(&[(1.0, 5.0), (5.0, 0.0), (8.0, 8.0), (2.0, 2.0), (2.0, 4.0)]);
    either_way(rng, at(base, 0.0, body, body + upper, -lower))
}

/// 13: a doji after a bar with a strong rise or none.
fn doji(rng: &mut Rng, base: f64, bars: &mut Vec<Bar>) {
    let body = rng.whole(1, 7);
    let shadow = rng.pick(&[0.0, 0.5, 1.0]);
    let older = at(base, -body, 0.0, shadow, -body - shadow);
    bars.push(either_way(rng, older));
    if rng.one_in(6) {
        bars.push(at(base, 0.0, 3.0, 4.0, -1.0));
    } else {
        bars.push(doji_bar(rng, base));
    }
}

/// 14: two to five doji among five bars.
fn three_doji(rng: &mut Rng, base: f64, bars: &mut Vec<Bar>) {
    for _ in 0..5 {
        if rng.one_in(3) {
            bars.push(at(base, 0.0, 3.0, 4.0, -1.0));
        } else {
            bars.push(doji_bar(rng, base));
        }
    }
}

/// 15: a fall, an open as far below, a close where the fall closed.
fn counterattack(rng: &mut Rng, base: f64, bars: &mut Vec<Bar>) {
    let start = bars.len();
    let height = rng.whole(1, 6);
    let older = height + rng.pick(&[-1.0, 0.0, 1.0]);
    bars.push(at(base, older + 1.0, older, older + 2.0, -1.0));
    bars.push(at(base, height, 0.0, height + 1.0, -1.0));
    let close = rng.pick(&[0.0, 0.0, 0.1, -0.1, 0.6]);
    let open = -height - rng.pick(&[0.0, 1.0, -1.0]);
    bars.push(at(base, open, close, 1.0, open - 1.0));
    maybe_mirror(rng, &mut bars[start..], base);
}

/// 16: two like bodies of opposite direction beyond a gap.
fn gap(rng: &mut Rng, base: f64, bars: &mut Vec<Bar>) {
    let start = bars.len();
    bars.push(at(base, -2.0, -1.0, 0.0, -3.0));
    bars.push(at(base, 2.0, 5.0, 6.0, 1.0));
    let close = 2.0 + rng.pick(&[0.0, 0.5, -0.5, 0.875, 1.0]);
    bars.push(at(base, 5.0, close, 6.0, 1.0));
    maybe_mirror(rng, &mut bars[start..], base);
}

/// 17: a rise, small falls with like highs above both ends, a fall. One body between may be the
/// longest of all; or most of the bars have none.
fn tower(rng: &mut Rng, base: f64, bars: &mut Vec<Bar>) {
    let start = bars.len();
    let middle = rng.between(2, 8);
    let flat = rng.one_in(6);
    let rise = if flat {
        rng.whole(-1, 1)
    } else {
        rng.whole(5, 9)
    };
    bars.push(at(base, 0.0, rise, 10.0, -1.0));
    for _ in 0..middle {
        let open = if flat { 4.0 } else { 5.0 };
        let high = 10.0 + rng.pick(&[0.0, 0.0, 0.5, 1.0]);
        bars.push(at(base, open, 4.0, high, 2.0));
    }
    if rng.one_in(3) {
        let odd = start + 1 + rng.below(middle);
        bars[odd].open = base + 16.0;
    }
    let fall = if flat {
        rng.whole(0, 2)
    } else {
        rng.whole(6, 9)
    };
    bars.push(at(base, fall, rng.whole(0, 1), 10.0, -1.0));
    maybe_mirror(rng, &mut bars[start..], base);
}
