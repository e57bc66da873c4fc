//! One box with its feeds, and perhaps a look at it: what is tried at once.

use crate::text;
use inputs::Case;
use inputs::looks::Look;
use jcc_types::{BAR_PRICES, Bar, ROW_BYTES, TALLY_COUNTS, Thresholds};
use std::fmt;

#[derive(Clone)]
pub struct Trial {
    pub bars: Vec<Bar>,
    pub thresholds: Thresholds,
    /// The sizes of the feeds.
    pub sizes: Vec<u32>,
    /// Bytes of the sheet past the rows.
    pub spare: usize,
    /// How many counts of a tally are lent.
    pub counts: usize,
    /// The bits that the exports are handed in the place of each NaN. The judges keep theirs.
    pub nan: Option<u64>,
    pub look: Option<Look>,
}

impl Trial {
    /// One feed of a case's bars.
    pub fn of(case: &Case) -> Trial {
        Trial {
            bars: case.bars.clone(),
            thresholds: case.thresholds,
            sizes: Vec::new(),
            spare: 0,
            counts: TALLY_COUNTS,
            nan: None,
            look: None,
        }
    }

    pub fn has_nan(&self) -> bool {
        let is_nan = |bar: &Bar| bar.prices().iter().any(|price| price.is_nan());
        self.bars.iter().any(is_nan)
    }

    /// The prices as the exports are handed them.
    pub fn prices(&self) -> Vec<f64> {
        let mut prices = Vec::with_capacity(self.bars.len() * BAR_PRICES);
        prices.extend(self.bars.iter().flat_map(Bar::prices));
        if let Some(bits) = self.nan {
            let nans = prices.iter_mut().filter(|price| price.is_nan());
            nans.for_each(|price| *price = f64::from_bits(bits));
        }
        prices
    }

    pub fn sheet_len(&self) -> usize {
        self.bars.len() * ROW_BYTES + self.spare
    }

    /// Simpler trials, those with much less first: fewer newest or oldest bars, one bar fewer,
    /// fewer feeds, no spare bytes, all counts and no more, the standard set.
    pub fn simpler(&self) -> Vec<Trial> {
        let count = self.bars.len();
        let halves = |n: usize| (0..usize::BITS).map(move |i| n >> i).take_while(|n| *n > 0);
        let mut trials = Vec::new();
        for fewer in halves(count) {
            trials.push(self.changed(|t| t.bars.truncate(count - fewer)));
            trials.push(self.changed(|t| t.remove(0..fewer)));
        }
        trials.extend((0..count).map(|i| self.changed(|t| t.remove(i..i + 1))));
        for fewer in halves(self.sizes.len()) {
            trials.push(self.changed(|t| t.sizes.truncate(t.sizes.len() - fewer)));
        }
        for i in 0..self.sizes.len() {
            trials.push(self.changed(|t| t.join(i)));
        }
        if self.spare > 0 {
            trials.push(self.changed(|t| t.spare = 0));
        }
        if self.counts != TALLY_COUNTS {
            trials.push(self.changed(|t| t.counts = TALLY_COUNTS));
        }
        if self.thresholds.to_bytes() != Thresholds::STANDARD.to_bytes() {
            trials.push(self.changed(|t| t.thresholds = Thresholds::STANDARD));
        }
        trials
    }

    fn changed(&self, change: impl FnOnce(&mut Trial)) -> Trial {
        let mut trial = self.clone();
        change(&mut trial);
        trial
    }

    /// Removes bars, each from its feed, so that the other cuts stay where they are.
    fn remove(&mut self, range: std::ops::Range<usize>) {
        let mut start = 0;
        for size in &mut self.sizes {
            let end = start + *size as usize;
            let removed = range.end.min(end).saturating_sub(range.start.max(start));
            *size -= removed as u32;
            start = end;
        }
        self.bars.drain(range);
    }

    /// Makes one feed of a feed and the next one.
    fn join(&mut self, at: usize) {
        let size = self.sizes.remove(at);
        if let Some(next) = self.sizes.get_mut(at) {
            *next = next.saturating_add(size);
        }
    }
}

impl fmt::Display for Trial {
    fn fmt(&self, f: &mut fmt::Formatter<'_>) -> fmt::Result {
        writeln!(
            f,
            "{} bars in {}",
            self.bars.len(),
            text::sizes(&self.sizes)
        )?;
        if let Some(Look { recogniser, offset }) = self.look {
            writeln!(f, "then a look: recogniser {recogniser}, offset {offset}")?;
        }
        if let Some(bits) = self.nan {
            writeln!(f, "each NaN is handed over as {bits:016x}")?;
        }
        let (bytes, counts) = (self.sheet_len(), self.counts);
        writeln!(f, "a sheet of {bytes} bytes, a tally of {counts} counts")?;
        writeln!(f, "{}", text::thresholds(&self.thresholds))?;
        f.write_str(&text::bars(1, &self.bars))
    }
}
