//! What the benchmarks of calls and feeds share: their rounds, rates, digests and feeds.

use jcc_types::{BAR_PRICES, ROW_BYTES, Thresholds};
use std::hint::black_box;
use std::time::Instant;

/// The seed of the walks.
pub const SEED: u64 = 1;

/// Million bars a second in the rounds of a row.
#[derive(Clone, Default)]
pub struct Rates(Vec<f64>);

impl Rates {
    /// Times the next round, in which the bars of the sheet are labelled so many times.
    pub fn round(&mut self, passes: usize, sheet: &mut [u8], mut run: impl FnMut(&mut [u8])) {
        // No label is left from the round before.
        sheet.fill(u8::MAX);
        let bars = sheet.len() / ROW_BYTES * passes;
        self.time(bars, || (0..passes).for_each(|_| run(sheet)));
    }

    /// Times the next round, in which so many bars are taken in.
    pub fn time(&mut self, bars: usize, run: impl FnOnce()) {
        let start = Instant::now();
        run();
        let time = start.elapsed();
        self.0.push(bars as f64 / time.as_secs_f64() / 1e6);
    }

    pub fn best(&self) -> f64 {
        self.0.iter().copied().fold(0.0, f64::max)
    }

    pub fn median(&self) -> f64 {
        let mut rates = self.0.clone();
        rates.sort_by(f64::total_cmp);
        rates[rates.len() / 2]
    }
}

pub fn ratio(rate: f64, to: f64) -> String {
    format!("{:.2}x", rate / to)
}

/// Best and median of two, and the ratios of the second to the first.
pub fn columns(one: &Rates, other: &Rates) -> String {
    let [best, median] = [Rates::best, Rates::median].map(|rate| ratio(rate(other), rate(one)));
    let rates = [one.best(), one.median(), other.best(), other.median()];
    let rates = rates.map(|rate| format!("{rate:>8.3}")).concat();
    format!("{rates}{best:>8}{median:>8}")
}

pub fn column_titles() -> String {
    format!("{:>8}{:>8}", "best", "median").repeat(3)
}

/// A hash over all pairs in their order (FNV-1a over words).
pub fn digest(sheet: &[u8]) -> u64 {
    let (pairs, _) = sheet.as_chunks();
    pairs.iter().fold(0xCBF2_9CE4_8422_2325, |hash, pair| {
        let pair = u16::from_be_bytes(*pair);
        (hash ^ u64::from(pair)).wrapping_mul(0x0000_0100_0000_01B3)
    })
}

/// The standard set, unknown to the compiler: a caller's thresholds are no constants.
pub fn thresholds() -> Thresholds {
    black_box(Thresholds::STANDARD)
}

/// A library's `jcc_feed` as a safe function.
pub type Feed = fn(&Thresholds, &[u32], &[f64], &mut [u8]) -> u32;

/// Feeds a library the prices, so many bars at a time.
pub fn feed(library: Feed, size: usize, prices: &[f64], sheet: &mut [u8]) {
    accepted(library(&thresholds(), &sizes(size, prices), prices, sheet));
}

/// The feeds of a walk are never refused.
pub fn accepted(refusal: u32) {
    assert_eq!(refusal, 0, "the feeds are accepted");
}

/// Feeds of so many bars.
pub fn sizes(size: usize, prices: &[f64]) -> Vec<u32> {
    vec![size as u32; (prices.len() / BAR_PRICES).div_ceil(size)]
}
