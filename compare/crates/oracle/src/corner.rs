//! 01's two corners: where Rust leaves the repository's result open and 01 chooses.
//!
//! A third place does not show: Rust leaves the rounding of `powi` open too, and `x.powi(2)` is
//! compiled to x × x, which 01 chooses.

use crate::objects::bar::RawBar;
use crate::utils::sig::get_sub_elements;

#[derive(Clone, Copy, Debug, PartialEq, Eq)]
pub enum Corner {
    /// 17: a window of 5 to 9 bars has a NaN body, and the sort's order is open.
    NanBody,
    /// 15: the highest high and the lowest low are both zero, and the zeros' signs are open.
    ZeroExtremes,
}

impl Corner {
    pub const ALL: [Corner; 2] = [Corner::NanBody, Corner::ZeroExtremes];

    /// The corner that a call is in. The offset is at least 1.
    pub(crate) fn of(recogniser: usize, offset: u32, bars: &[RawBar]) -> Option<Corner> {
        let window = |n| get_sub_elements(bars, offset as usize, n);
        match recogniser {
            17 if window(5).len() == 5 && window(9).iter().any(nan_body) => Some(Corner::NanBody),
            15 if window(21).len() == 21 && zero_extremes(window(20)) => Some(Corner::ZeroExtremes),
            _ => None,
        }
    }
}

fn nan_body(bar: &RawBar) -> bool {
    (bar.open - bar.close).is_nan()
}

fn zero_extremes(bars: &[RawBar]) -> bool {
    let highest = bars
        .iter()
        .map(|b| b.high)
        .fold(f64::NEG_INFINITY, f64::max);
    let lowest = bars.iter().map(|b| b.low).fold(f64::INFINITY, f64::min);
    highest == 0.0 && lowest == 0.0
}
