//! What the judges, the inputs and the export share: bars, thresholds, labels and the form of an
//! answer. Document 01 fixes all of it.
#![no_std]

mod answer;
mod export;
mod label;

pub use answer::{Answer, REFUSED};
pub use label::{LABELS, Label, Pair, code_of};

/// How many recognisers there are; a recogniser's number is below this.
pub const RECOGNISERS: usize = 18;

/// The greatest number of bars in a history.
pub const MAX_BARS: usize = 1_000_000;

/// The bytes of one bar in the export's form.
pub const BAR_BYTES: usize = 32;

/// The prices of one bar in a feed.
pub const BAR_PRICES: usize = 4;

/// The bytes of one bar's row in a sheet: v1 and v2 of each recogniser.
pub const ROW_BYTES: usize = 2 * RECOGNISERS;

/// The counts of a tally: one for each recogniser and v1, those of recogniser k from 38 × k on.
pub const TALLY_COUNTS: usize = RECOGNISERS * LABELS.len();

/// The newest bars that a box keeps.
pub const KEPT: usize = 64;

/// The greatest offset of a look: 22 of the kept bars are up to the judged one.
pub const MOST_OFFSET: u32 = 43;

/// The recognisers' names, by number.
pub const NAMES: [&str; RECOGNISERS] = [
    "san_xing_xian",
    "ten_mo",
    "wu_yun_gai_ding",
    "ci_tou",
    "san_fa_v20221118",
    "san_fa_v20221115",
    "xing_xian",
    "fen_shou_xian",
    "zhu_huo_xian",
    "yun_xian",
    "ping_tou",
    "two_crow",
    "three_crow",
    "szx",
    "san_szx",
    "fan_ji_xian",
    "gap_yin_yang",
    "ta_xing",
];

/// The least number of bars up to the judged one with which a recogniser does not give its short
/// pair.
pub const LEAST_P: [usize; RECOGNISERS] =
    [1, 2, 12, 16, 5, 6, 3, 2, 1, 2, 2, 3, 3, 11, 8, 21, 7, 5];

/// One bar, the prices in the order of the export's bytes.
#[derive(Clone, Copy, Debug)]
#[repr(C)]
pub struct Bar {
    pub open: f64,
    pub close: f64,
    pub high: f64,
    pub low: f64,
}

impl Bar {
    pub const fn new(open: f64, close: f64, high: f64, low: f64) -> Bar {
        Bar {
            open,
            close,
            high,
            low,
        }
    }

    pub fn from_prices([open, close, high, low]: [f64; 4]) -> Bar {
        Bar::new(open, close, high, low)
    }

    pub fn prices(&self) -> [f64; 4] {
        [self.open, self.close, self.high, self.low]
    }

    /// Each price's bits, little-endian.
    pub fn to_bytes(self) -> [u8; BAR_BYTES] {
        let mut bytes = [0; BAR_BYTES];
        for (out, price) in bytes.chunks_exact_mut(8).zip(self.prices()) {
            out.copy_from_slice(&price.to_bits().to_le_bytes());
        }
        bytes
    }

    pub fn from_bytes(bytes: &[u8; BAR_BYTES]) -> Bar {
        let mut prices = [0.0; 4];
        for (price, word) in prices.iter_mut().zip(bytes.as_chunks::<8>().0) {
            *price = f64::from_bits(u64::from_le_bytes(*word));
        }
        Bar::from_prices(prices)
    }
}

/// The thirteen thresholds; the digits of a name are the recogniser's number. Those of 13 and 14 are
/// in tenths.
#[derive(Clone, Copy, Debug)]
pub struct Thresholds {
    pub th0: f64,
    pub z2: u32,
    pub th2: u32,
    pub z3: u32,
    pub th3: u32,
    pub zdf5: u32,
    pub th6: u32,
    pub zdf7: u32,
    pub th8: f64,
    pub zf8: u32,
    pub th10: u32,
    /// In tenths.
    pub th13: u32,
    /// In tenths.
    pub th14: u32,
}

impl Thresholds {
    /// How many thresholds are whole numbers.
    pub const WHOLE: usize = 11;

    /// The greatest th0 and th8.
    pub const MOST_REAL: f64 = 10_000.0;

    /// The greatest whole threshold of most kinds.
    pub const MOST_WHOLE: u32 = 1_000_000;

    /// The greatest of those in tenths.
    pub const MOST_TENTHS: u32 = 10_000_000;

    /// How many tenths are one of the repository's.
    pub const UNIT: u32 = 10;

    /// The bytes of `to_bytes`.
    pub const BYTES: usize = 2 * 8 + Thresholds::WHOLE * 4;

    pub const STANDARD: Thresholds = Thresholds {
        th0: 2.0,
        z2: 500,
        th2: 50,
        z3: 100,
        th3: 50,
        zdf5: 500,
        th6: 2,
        zdf7: 300,
        th8: 2.0,
        zf8: 500,
        th10: 100,
        th13: 100,
        th14: 100,
    };

    /// All zero: what a list of answers starts with.
    pub const ZERO: Thresholds = Thresholds::from_parts([0.0; 2], [0; Thresholds::WHOLE]);

    pub const fn from_parts([th0, th8]: [f64; 2], w: [u32; Thresholds::WHOLE]) -> Thresholds {
        Thresholds {
            th0,
            z2: w[0],
            th2: w[1],
            z3: w[2],
            th3: w[3],
            zdf5: w[4],
            th6: w[5],
            zdf7: w[6],
            th8,
            zf8: w[7],
            th10: w[8],
            th13: w[9],
            th14: w[10],
        }
    }

    /// th0 and th8.
    pub fn reals(&self) -> [f64; 2] {
        [self.th0, self.th8]
    }

    /// The eleven others, in 01's order.
    pub fn wholes(&self) -> [u32; Thresholds::WHOLE] {
        [
            self.z2, self.th2, self.z3, self.th3, self.zdf5, self.th6, self.zdf7, self.zf8,
            self.th10, self.th13, self.th14,
        ]
    }

    /// In 01's order, each little-endian: th0, seven whole numbers, th8, four whole numbers.
    pub fn to_bytes(&self) -> [u8; Thresholds::BYTES] {
        let mut bytes = [0; Thresholds::BYTES];
        bytes[..8].copy_from_slice(&self.th0.to_bits().to_le_bytes());
        bytes[36..44].copy_from_slice(&self.th8.to_bits().to_le_bytes());
        for (i, whole) in self.wholes().into_iter().enumerate() {
            let at = Thresholds::place_of_whole(i);
            bytes[at..at + 4].copy_from_slice(&whole.to_le_bytes());
        }
        bytes
    }

    pub fn from_bytes(bytes: &[u8; Thresholds::BYTES]) -> Thresholds {
        let real = |at: usize| {
            let mut word = [0; 8];
            word.copy_from_slice(&bytes[at..at + 8]);
            f64::from_bits(u64::from_le_bytes(word))
        };
        let mut wholes = [0; Thresholds::WHOLE];
        for (i, whole) in wholes.iter_mut().enumerate() {
            let at = Thresholds::place_of_whole(i);
            let mut word = [0; 4];
            word.copy_from_slice(&bytes[at..at + 4]);
            *whole = u32::from_le_bytes(word);
        }
        Thresholds::from_parts([real(0), real(36)], wholes)
    }

    /// Whether the i-th whole threshold is in tenths: th13 and th14, the last two, are.
    pub const fn is_in_tenths(i: usize) -> bool {
        i >= 9
    }

    /// The greatest value of the i-th whole threshold.
    pub const fn most(i: usize) -> u32 {
        if Thresholds::is_in_tenths(i) {
            Thresholds::MOST_TENTHS
        } else {
            Thresholds::MOST_WHOLE
        }
    }

    /// The first byte of the i-th whole threshold: seven stand before th8, four after it.
    const fn place_of_whole(i: usize) -> usize {
        if i < 7 { 8 + 4 * i } else { 16 + 4 * i }
    }
}
