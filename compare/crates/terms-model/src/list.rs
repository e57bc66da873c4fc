//! A list of calls to a fresh layer, as the export `jcc_terms` makes them.

use crate::layer::Layer;
use jcc_types::{BAR_PRICES, ROW_BYTES, Thresholds};

/// An answer above this is a refusal: the difference is the refusal's number.
pub const REFUSED: u32 = 1 << 24;

/// What a layer is made from, and what it is then handed.
#[derive(Clone, Copy)]
pub struct List<'a> {
    pub thresholds: &'a Thresholds,
    pub minutes: u32,
    pub hours: &'a [u32],
    pub stamps: &'a [u32],
    pub prices: &'a [f64],
    /// 0 is a close, another number a run of so many bars.
    pub calls: &'a [u32],
}

impl List<'_> {
    /// Makes all calls, each with the rest of the sheet behind the rows of those before; writes the
    /// rows or the refusal of each into the answers, as far as they go. Gives 0, or the refusal of
    /// the making.
    pub fn make(&self, mut sheet: &mut [u8], answers: &mut [u32]) -> u32 {
        let mut layer = match Layer::make(self.thresholds, self.hours, self.minutes) {
            Ok(layer) => layer,
            Err(refusal) => return refusal,
        };
        let (mut stamps, mut prices) = (self.stamps, self.prices);
        let mut answers = answers.iter_mut();
        for call in self.calls {
            let count = *call as usize;
            let called = if count == 0 {
                layer.close(sheet)
            } else {
                let now = next(&mut stamps, count);
                layer.run(now, next(&mut prices, count * BAR_PRICES), sheet)
            };
            if let Ok(rows) = called {
                sheet = &mut sheet[rows * ROW_BYTES..];
            }
            if let Some(answer) = answers.next() {
                *answer = number(called);
            }
        }
        0
    }
}

/// The next so many elements, or as many as are left.
fn next<'a, T>(from: &mut &'a [T], count: usize) -> &'a [T] {
    let (now, later) = from.split_at(count.min(from.len()));
    *from = later;
    now
}

/// The export's form of a call's outcome.
fn number(called: Result<usize, u32>) -> u32 {
    match called {
        Ok(rows) => rows as u32,
        Err(refusal) => REFUSED + refusal,
    }
}
