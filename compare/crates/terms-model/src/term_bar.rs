//! A term's bar, as its minute bars come in.

use jcc_types::Bar;

/// The bar of a term that has not ended.
#[derive(Clone, Copy, Debug)]
pub struct TermBar {
    pub bar: Bar,
    /// The first minute past the term.
    pub end: u64,
}

impl TermBar {
    /// Takes in a later bar of the term.
    pub fn take(&mut self, later: &Bar) {
        self.bar.close = later.close;
        self.bar.high = max(self.bar.high, later.high);
        self.bar.low = min(self.bar.low, later.low);
    }
}

/// 01's max: the other one if one is NaN, a if both are.
fn max(a: f64, b: f64) -> f64 {
    if b > a || (a.is_nan() && !b.is_nan()) {
        b
    } else {
        a
    }
}

/// The mirror of `max`.
fn min(a: f64, b: f64) -> f64 {
    if b < a || (a.is_nan() && !b.is_nan()) {
        b
    } else {
        a
    }
}
