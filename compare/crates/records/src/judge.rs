//! One call two ways: over records and over bytes.

use crate::tally::Tally;
use inputs::{Case, report};
use jcc_types::{BAR_PRICES, Bar, Thresholds};
use program::Difference;

/// A bar as the library has it in a record: open, close, high and low, `#[repr(C)]`.
type Record = [f64; BAR_PRICES];

jcc_types::export! {
    /// The plain call over records: v1 × 256 + v2, or 65,536 plus the refusal.
    fn label_bars = jcc_label_bars(recogniser, offset) reads (bars: [Record]) writes ()
}

/// The most bars of a report, and how many of a longer history are shown.
const MOST_SHOWN: usize = 5000;
const SHOWN_OF_LONG: usize = 64;

/// The two answers to one call.
struct Answers {
    records: u32,
    bytes: u32,
}

impl Answers {
    fn differ(&self) -> bool {
        self.records != self.bytes
    }

    fn named(&self) -> [(&'static str, u32); 2] {
        [("jcc_label_bars", self.records), ("jcc_label", self.bytes)]
    }
}

/// A history in both forms.
#[derive(Default)]
struct History {
    /// The records' prices, after another one if they are shifted.
    prices: Vec<f64>,
    is_shifted: bool,
    bytes: Vec<u8>,
}

impl History {
    /// Every second history is shifted: records may begin at any multiple of 8.
    fn fill(&mut self, bars: &[Bar]) {
        self.is_shifted = !self.is_shifted;
        self.prices.clear();
        self.prices.resize(self.is_shifted.into(), 0.0);
        self.bytes.clear();
        for bar in bars {
            self.prices.extend(bar.prices());
            self.bytes.extend(bar.to_bytes());
        }
    }

    fn records(&self) -> &[Record] {
        self.prices[self.is_shifted.into()..].as_chunks().0
    }
}

pub struct Judge {
    history: History,
    pub tally: Tally,
}

impl Judge {
    pub fn new() -> Judge {
        Judge {
            history: History::default(),
            tally: Tally::default(),
        }
    }

    /// Tries these recognisers at each offset of a case.
    pub fn check(&mut self, case: &Case, recognisers: &[u32]) -> Result<(), Difference> {
        self.history.fill(&case.bars);
        for offset in &case.offsets {
            for k in recognisers {
                let answers = self.answers(*k, *offset, &case.thresholds);
                if answers.differ() {
                    return Err(self.smallest(*k, *offset, case, answers));
                }
                self.tally.count(*k, answers.bytes);
            }
        }
        Ok(())
    }

    /// The answers for the history that was laid last.
    fn answers(&self, k: u32, offset: u32, t: &Thresholds) -> Answers {
        Answers {
            records: label_bars(k, offset, t, self.history.records()),
            bytes: label_export::label(k, offset, t, &self.history.bytes),
        }
    }

    /// A difference, shown on the fewest newest bars that have one.
    fn smallest(&mut self, k: u32, offset: u32, case: &Case, found: Answers) -> Difference {
        let all = case.bars.len();
        for count in 0..all.min(MOST_SHOWN) {
            let bars = &case.bars[all - count..];
            self.history.fill(bars);
            let answers = self.answers(k, offset, &case.thresholds);
            if answers.differ() {
                return difference(k, offset, case, bars, &answers);
            }
        }
        if all <= MOST_SHOWN {
            return difference(k, offset, case, &case.bars, &found);
        }
        let newest = &case.bars[all - SHOWN_OF_LONG..];
        let Difference(text) = difference(k, offset, case, newest, &found);
        Difference(format!(
            "over {all} bars, of which the newest {SHOWN_OF_LONG} are shown:\n{text}"
        ))
    }
}

fn difference(k: u32, offset: u32, case: &Case, bars: &[Bar], answers: &Answers) -> Difference {
    let part = Case {
        bars: bars.to_vec(),
        thresholds: case.thresholds,
        offsets: Vec::new(),
    };
    Difference(report::call(k, offset, &part, &answers.named()))
}
