//! The two walks, and what the plain port says of them.

use inputs::long_middles::long_middles;
use inputs::rng::Rng;
use inputs::walk::market;
use jcc_types::{Bar, Label, ROW_BYTES};
use measure::{SEED, digest, sizes, thresholds};

pub struct Walk {
    pub name: &'static str,
    /// What is printed.
    pub title: &'static str,
    stream: u64,
    bars: fn(&mut Rng, usize) -> Vec<Bar>,
}

pub const WALKS: [Walk; 2] = [
    Walk {
        name: "plain",
        title: "plain walk",
        stream: 0,
        bars: market,
    },
    Walk {
        name: "middles",
        title: "long middles",
        stream: 1,
        bars: long_middles,
    },
];

impl Walk {
    /// The prices of its first bars.
    pub fn prices(&self, bars: usize) -> Vec<f64> {
        let mut rng = Rng::stream(SEED, self.stream, 0);
        let bars = (self.bars)(&mut rng, bars);
        bars.iter().flat_map(Bar::prices).collect()
    }
}

/// What the plain port's box says of a walk.
pub struct Labels {
    pub digest: u64,
    /// How many bars have a window of 5, 6, 7, 8 and 9 bars, in 4 and in 17.
    pub windows: [[usize; 5]; 2],
}

impl Labels {
    pub fn of(prices: &[f64], sheet: &mut [u8]) -> Labels {
        let fed = port::feed_in_parts(&thresholds(), &sizes(4096, prices), prices, sheet);
        assert!(fed.is_ok(), "the feeds are accepted");
        Labels {
            digest: digest(sheet),
            windows: [4, 17].map(|k| windows(sheet, k)),
        }
    }
}

fn windows(sheet: &[u8], recogniser: usize) -> [usize; 5] {
    let (rows, _) = sheet.as_chunks::<ROW_BYTES>();
    let has = |row: &[u8; ROW_BYTES], size| row[2 * recogniser + 1] == size as u8;
    let sizes = [Label::K5, Label::K6, Label::K7, Label::K8, Label::K9];
    sizes.map(|size| rows.iter().filter(|row| has(row, size)).count())
}
