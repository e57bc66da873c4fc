//! One list of calls to a fresh layer, with what is lent: what is tried at once.

use jcc_types::{BAR_PRICES, ROW_BYTES, Thresholds};
use std::fmt;
use std::ops::Range;
use terms_model::List;

#[derive(Clone)]
pub struct Trial {
    pub thresholds: Thresholds,
    /// The length of a term.
    pub minutes: u32,
    /// Two numbers to a window.
    pub hours: Vec<u32>,
    pub stamps: Vec<u32>,
    pub prices: Vec<f64>,
    /// 0 is a close, another number a run of so many bars.
    pub calls: Vec<u32>,
    /// The bytes of the sheet.
    pub sheet: usize,
    /// The places for answers.
    pub answers: usize,
    /// The bits that the export is handed in the place of each NaN. The judges keep theirs.
    pub nan: Option<u64>,
}

impl Trial {
    /// The windows as the numbers give them; a missing last number is 0.
    pub fn windows(&self) -> Vec<[u32; 2]> {
        let window = |pair: &[u32]| [pair[0], pair.get(1).copied().unwrap_or(0)];
        self.hours.chunks(2).map(window).collect()
    }

    /// The prices as the export is handed them.
    pub fn handed_prices(&self) -> Vec<f64> {
        let mut prices = self.prices.clone();
        if let Some(bits) = self.nan {
            let nans = prices.iter_mut().filter(|price| price.is_nan());
            nans.for_each(|price| *price = f64::from_bits(bits));
        }
        prices
    }

    pub fn list(&self) -> List<'_> {
        List {
            thresholds: &self.thresholds,
            minutes: self.minutes,
            hours: &self.hours,
            stamps: &self.stamps,
            prices: &self.prices,
            calls: &self.calls,
        }
    }

    /// The bytes of a sheet in which no call finds too little room.
    pub fn enough(&self) -> usize {
        (self.prices.len() / BAR_PRICES + self.calls.len() + 1) * ROW_BYTES
    }

    /// Simpler trials, those with much less first: fewer calls with their bars, fewer bars, runs
    /// joined, a sheet with room, a place for each answer, the standard set. Each is made when it is
    /// asked for.
    pub fn simpler(&self) -> impl Iterator<Item = Trial> {
        let calls = self.calls.len();
        let halves = (0..usize::BITS).map(move |i| calls >> i);
        let fewer_calls = halves.take_while(|n| *n > 1).flat_map(move |fewer| {
            [
                self.changed(|t| t.calls.truncate(calls - fewer)),
                self.changed(|t| (0..fewer).for_each(|_| t.remove_call(0))),
            ]
        });
        let one_call = (0..calls).map(|i| self.changed(|t| t.remove_call(i)));
        let half_runs = (0..calls).flat_map(|i| self.half_runs(i));
        let joined = (1..calls).filter_map(|i| self.joined(i));
        let one_bar = (0..self.stamps.len()).filter_map(|i| self.without_bar(i));
        let fewer = fewer_calls.chain(one_call).chain(half_runs);
        fewer.chain(joined).chain(one_bar).chain(self.plainer())
    }

    /// With all calls and bars, but nothing else that is odd.
    fn plainer(&self) -> Vec<Trial> {
        let mut trials = Vec::new();
        let passed = self.passed();
        if passed < self.stamps.len() || passed * BAR_PRICES < self.prices.len() {
            trials.push(self.changed(|t| t.cut_off(passed)));
        }
        if self.sheet != self.enough() {
            trials.push(self.changed(|t| t.sheet = t.enough()));
        }
        if self.answers != self.calls.len() {
            trials.push(self.changed(|t| t.answers = t.calls.len()));
        }
        if self.nan.is_some() {
            trials.push(self.changed(|t| t.nan = None));
        }
        if self.thresholds.to_bytes() != Thresholds::STANDARD.to_bytes() {
            trials.push(self.changed(|t| t.thresholds = Thresholds::STANDARD));
        }
        trials
    }

    fn changed(&self, change: impl FnOnce(&mut Trial)) -> Trial {
        let mut trial = self.clone();
        change(&mut trial);
        trial
    }

    /// The bars that all calls pass.
    pub fn passed(&self) -> usize {
        self.start(self.calls.len())
    }

    /// The bars that are passed before a call.
    fn start(&self, call: usize) -> usize {
        let sizes = self.calls[..call].iter().map(|n| *n as usize);
        sizes.fold(0, usize::saturating_add)
    }

    fn remove_call(&mut self, call: usize) {
        let start = self.start(call);
        let count = self.calls.remove(call) as usize;
        self.remove_bars(start..start.saturating_add(count));
    }

    fn remove_bars(&mut self, bars: Range<usize>) {
        let prices = bars.start.saturating_mul(BAR_PRICES)..bars.end.saturating_mul(BAR_PRICES);
        remove(&mut self.stamps, bars);
        remove(&mut self.prices, prices);
    }

    /// With a run and the one before it made one run.
    fn joined(&self, call: usize) -> Option<Trial> {
        let both = self.calls[call - 1].checked_add(self.calls[call])?;
        if self.calls[call - 1] == 0 || self.calls[call] == 0 {
            return None;
        }
        Some(self.changed(|t| {
            t.calls.remove(call);
            t.calls[call - 1] = both;
        }))
    }

    /// With the first or the last half of a run alone.
    fn half_runs(&self, call: usize) -> Vec<Trial> {
        let half = self.calls[call] / 2;
        if half < 2 {
            return Vec::new();
        }
        let start = self.start(call);
        let end = start.saturating_add(self.calls[call] as usize);
        let without = |from: usize| {
            self.changed(|t| {
                t.calls[call] -= half;
                t.remove_bars(from..from + half as usize);
            })
        };
        vec![without(start), without(end - half as usize)]
    }

    /// Without a bar, whose run must keep another: a run of none would be a close.
    fn without_bar(&self, bar: usize) -> Option<Trial> {
        let mut passed = 0_usize;
        let call = self.calls.iter().position(|count| {
            passed = passed.saturating_add(*count as usize);
            passed > bar
        })?;
        if self.calls[call] == 1 {
            return None;
        }
        Some(self.changed(|t| {
            t.calls[call] -= 1;
            t.remove_bars(bar..bar + 1);
        }))
    }

    /// Without what the calls leave.
    fn cut_off(&mut self, bars: usize) {
        self.stamps.truncate(bars);
        self.prices.truncate(bars * BAR_PRICES);
    }
}

fn remove<T>(all: &mut Vec<T>, range: Range<usize>) {
    let len = all.len();
    all.drain(range.start.min(len)..range.end.min(len));
}

/// Longer trials are printed in part.
const PRINTED: usize = 400;

impl fmt::Display for Trial {
    fn fmt(&self, f: &mut fmt::Formatter<'_>) -> fmt::Result {
        let (minutes, hours) = (self.minutes, &self.hours);
        writeln!(f, "terms of {minutes} minutes, hours {hours:?}")?;
        writeln!(f, "{} calls (0 is a close):", self.calls.len())?;
        for call in self.calls.iter().take(PRINTED) {
            write!(f, " {call}")?;
        }
        let (bytes, places) = (self.sheet, self.answers);
        writeln!(f, "\na sheet of {bytes} bytes, {places} places for answers")?;
        if let Some(bits) = self.nan {
            writeln!(f, "each NaN is handed over as {bits:016x}")?;
        }
        let [th0, th8] = self.thresholds.reals().map(f64::to_bits);
        let t = &self.thresholds;
        writeln!(f, "{t:?}, bits of th0 {th0:016x}, of th8 {th8:016x}")?;
        let (stamps, prices) = (self.stamps.len(), self.prices.len());
        writeln!(f, "{stamps} stamps, {prices} prices")?;
        let bars = self.prices.chunks(BAR_PRICES).map(Some);
        let bars = bars.chain(std::iter::repeat(None));
        for (stamp, bar) in self.stamps.iter().zip(bars).take(PRINTED) {
            let (day, minute) = (stamp / 1440, stamp % 1440);
            write!(f, "{stamp} (day {day}, minute {minute}):")?;
            let bar = bar.unwrap_or_default();
            bar.iter().try_for_each(|price| write!(f, " {price:?}"))?;
            write!(f, " ")?;
            let mut bits = bar.iter().map(|price| price.to_bits());
            bits.try_for_each(|bits| write!(f, " {bits:016x}"))?;
            writeln!(f)?;
        }
        Ok(())
    }
}
