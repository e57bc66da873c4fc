//! 01's measures.

use jcc_types::Bar;

/// The bars up to the judged one, oldest first; none if the offset exceeds the history.
pub fn up_to(bars: &[Bar], offset: u32) -> &[Bar] {
    match bars.len().checked_sub(offset as usize) {
        Some(before) => &bars[..before + 1],
        None => &[],
    }
}

/// The last n bars, or all if there are fewer.
pub fn last(bars: &[Bar], n: usize) -> &[Bar] {
    &bars[bars.len().saturating_sub(n)..]
}

/// The other one if one is NaN; a of two zeros.
pub fn max(a: f64, b: f64) -> f64 {
    if a.is_nan() || b > a { b } else { a }
}

/// The mirror of `max`.
pub fn min(a: f64, b: f64) -> f64 {
    if a.is_nan() || b < a { b } else { a }
}

pub fn body(b: &Bar) -> f64 {
    (b.open - b.close).abs()
}

pub fn upper(b: &Bar) -> f64 {
    b.high - max(b.open, b.close)
}

pub fn lower(b: &Bar) -> f64 {
    min(b.open, b.close) - b.low
}

/// The greatest of one price over some bars, from the oldest.
pub fn highest(bars: &[Bar], price: fn(&Bar) -> f64) -> f64 {
    bars.iter().map(price).fold(f64::NEG_INFINITY, max)
}

/// The least of one price over some bars, from the oldest.
pub fn lowest(bars: &[Bar], price: fn(&Bar) -> f64) -> f64 {
    bars.iter().map(price).fold(f64::INFINITY, min)
}

/// The mean of the squares about the mean, sums from the oldest.
pub fn variance(values: impl Iterator<Item = f64> + Clone) -> f64 {
    let count = values.clone().count() as f64;
    let mean = values.clone().sum::<f64>() / count;
    let squares = values.map(|x| (x - mean) * (x - mean));
    squares.sum::<f64>() / count
}

/// Where a bar stands in the range of 20 bars.
pub struct Quarter {
    pub highest: f64,
    pub lowest: f64,
    gap: f64,
}

impl Quarter {
    /// Of the newest 20 of these bars.
    pub fn of(bars: &[Bar]) -> Quarter {
        let bars = last(bars, 20);
        let highest = highest(bars, |b| b.high);
        let lowest = lowest(bars, |b| b.low);
        let gap = highest - lowest;
        Quarter {
            highest,
            lowest,
            gap,
        }
    }

    pub fn gap(&self) -> f64 {
        self.gap
    }

    pub fn low_side(&self, b: &Bar) -> bool {
        b.low <= self.lowest + 0.25 * self.gap
    }

    pub fn high_side(&self, b: &Bar) -> bool {
        b.high >= self.upper_bound()
    }

    /// Where the high side begins.
    pub fn upper_bound(&self) -> f64 {
        self.highest - 0.25 * self.gap
    }
}

/// A bar with no body but a range, or with a range of more than th tenths of its body: 02 divides th
/// by 10.0 once and compares as 01 does.
pub fn is_doji(b: &Bar, th: u32) -> bool {
    if b.close == b.open {
        b.high != b.low
    } else {
        (b.high - b.low) / body(b) > f64::from(th) / 10.0
    }
}
