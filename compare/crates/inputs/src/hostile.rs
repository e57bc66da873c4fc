//! Prices that no exchange sends, and small changes to good ones.

use crate::rng::Rng;
use jcc_types::Bar;

/// Quiet NaN of several payloads and both signs, zeros, infinities, subnormal, huge and negative
/// numbers.
pub const PRICES: [f64; 30] = [
    f64::from_bits(0x7FF8_0000_0000_0000),
    f64::from_bits(0xFFF8_0000_0000_0000),
    f64::from_bits(0x7FF8_0000_0000_0001),
    f64::from_bits(0xFFF8_0000_DEAD_BEEF),
    f64::from_bits(0x7FFF_FFFF_FFFF_FFFF),
    f64::from_bits(0xFFFF_FFFF_FFFF_FFFF),
    0.0,
    0.0,
    -0.0,
    -0.0,
    f64::INFINITY,
    f64::NEG_INFINITY,
    f64::from_bits(1),
    f64::from_bits(0x8000_0000_0000_0001),
    f64::from_bits(0x000F_FFFF_FFFF_FFFF),
    f64::from_bits(0x800F_FFFF_FFFF_FFFF),
    f64::MIN_POSITIVE,
    -f64::MIN_POSITIVE,
    f64::MAX,
    f64::MIN,
    1e308,
    -1e308,
    1e-300,
    1e154,
    -1e154,
    1.0,
    -1.0,
    1.0 + f64::EPSILON,
    -100.0,
    9_007_199_254_740_993.0,
];

/// Patterns of signalling NaN, of both signs.
const SIGNALLING: [u64; 5] = [
    0x7FF0_0000_0000_0001,
    0xFFF0_0000_0000_0001,
    0x7FF7_FFFF_FFFF_FFFF,
    0xFFF4_0000_0000_0000,
    0x7FF0_0000_DEAD_BEEF,
];

/// A signalling NaN pattern.
pub fn signalling(rng: &mut Rng) -> u64 {
    rng.pick(&SIGNALLING)
}

/// Any NaN pattern, quiet or signalling.
pub fn nan(rng: &mut Rng) -> u64 {
    let quiet = rng.one_in(2);
    let sign = rng.word() & (1 << 63);
    let payload = (rng.word() >> 13) | 1;
    sign | 0x7FF0_0000_0000_0000 | u64::from(quiet) << 51 | payload
}

/// One of the prices, counted through all bars, four to a bar.
pub fn price_at(bars: &mut [Bar], place: usize) -> &mut f64 {
    let bar = &mut bars[place / 4];
    match place % 4 {
        0 => &mut bar.open,
        1 => &mut bar.close,
        2 => &mut bar.high,
        _ => &mut bar.low,
    }
}

/// Puts hostile prices in: one, some, or nearly everywhere; or makes bars flat.
pub fn spoil(rng: &mut Rng, bars: &mut [Bar]) {
    match rng.below(5) {
        0 => spoil_some(rng, bars, 1),
        1 => spoil_some(rng, bars, 4),
        2 => spoil_some(rng, bars, 16),
        3 => flatten(rng, bars),
        _ => spoil_with_few(rng, bars),
    }
}

/// Half of the time near the newest bar, where most rules look.
fn spoil_some(rng: &mut Rng, bars: &mut [Bar], most: usize) {
    if bars.is_empty() {
        return;
    }
    let near = bars.len().saturating_sub(6);
    let from = if rng.one_in(2) { near } else { 0 };
    for _ in 0..rng.between(1, most) {
        let place = rng.between(4 * from, 4 * bars.len() - 1);
        *price_at(bars, place) = rng.pick(&PRICES);
    }
}

/// All prices from a handful of values: many ties among hostile prices.
fn spoil_with_few(rng: &mut Rng, bars: &mut [Bar]) {
    let few: [f64; 4] = std::array::from_fn(|_| rng.pick(&PRICES));
    let rate = rng.between(1, 4);
    for bar in bars {
        let changed = bar.prices().map(|price| {
            if rng.one_in(rate) {
                rng.pick(&few)
            } else {
                price
            }
        });
        *bar = Bar::from_prices(changed);
    }
}

fn flatten(rng: &mut Rng, bars: &mut [Bar]) {
    for bar in bars {
        if rng.one_in(2) {
            *bar = Bar::from_prices([bar.open; 4]);
        }
    }
}

/// Makes one or two bodies among the newest ten bars NaN, or infinite.
pub fn spoil_bodies(rng: &mut Rng, bars: &mut [Bar]) {
    let from = bars.len().saturating_sub(10);
    for _ in 0..rng.between(1, 2) {
        let bar = &mut bars[rng.between(from, bars.len() - 1)];
        let price = rng.pick(&[f64::NAN, -f64::NAN, f64::INFINITY, f64::NEG_INFINITY]);
        match rng.below(3) {
            0 => bar.open = price,
            1 => bar.close = price,
            _ => (bar.open, bar.close) = (price, price),
        }
    }
}

/// A small change to the bars from `from` on: one price by one unit in the last place, one price
/// moved a little or made equal to another, two prices or two bars exchanged, or the same price of
/// several bars moved alike.
pub fn perturb(rng: &mut Rng, bars: &mut [Bar], from: usize) {
    if from >= bars.len() {
        return;
    }
    let place = |rng: &mut Rng| rng.between(4 * from, 4 * bars.len() - 1);
    let (a, b) = (place(rng), place(rng));
    let (x, y) = (*price_at(bars, a), *price_at(bars, b));
    match rng.below(7) {
        0 => *price_at(bars, a) = x.next_up(),
        1 => *price_at(bars, a) = x.next_down(),
        2 => *price_at(bars, a) = x + rng.whole(-3, 3) * 0.5,
        3 => *price_at(bars, a) = y,
        4 => {
            *price_at(bars, a) = y;
            *price_at(bars, b) = x;
        }
        5 => bars.swap(a / 4, b / 4),
        _ => {
            let by = rng.whole(-8, 8);
            for place in (a.min(b)..=a.max(b)).filter(|i| i % 4 == a % 4) {
                *price_at(bars, place) += by;
            }
        }
    }
}
