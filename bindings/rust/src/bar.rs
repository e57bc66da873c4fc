//! Bars and thresholds.

/// One bar: four prices. Any `f64` is allowed, NaN and infinities too.
#[derive(Clone, Copy, Debug, PartialEq)]
#[repr(C)]
pub struct Bar {
    /// The first price.
    pub open: f64,
    /// The last price.
    pub close: f64,
    /// The highest price.
    pub high: f64,
    /// The lowest price.
    pub low: f64,
}

impl Bar {
    /// A bar of four prices, in the order of the fields.
    pub const fn new(open: f64, close: f64, high: f64, low: f64) -> Bar {
        Bar {
            open,
            close,
            high,
            low,
        }
    }

    /// The 32 bytes that the library takes for a bar: each price's bits, little-endian.
    pub fn to_bytes(self) -> [u8; 32] {
        let mut bytes = [0; 32];
        let prices = [self.open, self.close, self.high, self.low];
        for (place, price) in bytes.chunks_exact_mut(8).zip(prices) {
            place.copy_from_slice(&price.to_le_bytes());
        }
        bytes
    }
}

/// The thirteen thresholds. The digits at the end of a name are the recogniser's number.
///
/// The two `f64` go from 0.0 to 10,000.0, the whole numbers to
/// [`MOST_WHOLE`](Thresholds::MOST_WHOLE), but `th13` and `th14`, which count tenths, to
/// [`MOST_TENTHS`](Thresholds::MOST_TENTHS); a call with others is refused by
/// [`Refusal::Threshold`](crate::Refusal::Threshold).
///
/// Whoever passes 10 for `th13` or `th14` as before gets a tenth of what he means.
#[derive(Clone, Copy, Debug, PartialEq)]
pub struct Thresholds {
    /// `san_xing_xian`: the lower shadow is longer than so many bodies.
    pub th0: f64,
    /// `wu_yun_gai_ding`: the bar before rises by more than so many hundredths of a percent.
    pub z2: u32,
    /// `wu_yun_gai_ding`: the close is below so many percent of open + close of the bar before.
    pub th2: u32,
    /// `ci_tou`: the bar before falls by more than so many hundredths of a percent.
    pub z3: u32,
    /// `ci_tou`: the close comes back by more than so many percent of the body before.
    pub th3: u32,
    /// `san_fa_v20221115`: a strong bar's close changes by so many hundredths of a percent.
    pub zdf5: u32,
    /// `xing_xian`: the first body is longer than so many times the star's.
    pub th6: u32,
    /// `fen_shou_xian`: the close changes by more than so many hundredths of a percent.
    pub zdf7: u32,
    /// `zhu_huo_xian`: the upper shadow is longer than so many percent of the body.
    pub th8: f64,
    /// `zhu_huo_xian`: the bar's height is at least so many hundredths of a percent of its low.
    pub zf8: u32,
    /// `ping_tou`: the two prices differ by less than so many hundredths of a percent.
    pub th10: u32,
    /// `szx`: a doji's height is more than so many tenths of its body: at 105, 10.5 times it.
    pub th13: u32,
    /// `san_szx`: the same for each of its dojis.
    pub th14: u32,
}

impl Thresholds {
    /// The greatest of the whole numbers that count no tenths.
    pub const MOST_WHOLE: u32 = 1_000_000;

    /// The greatest `th13` and `th14`.
    pub const MOST_TENTHS: u32 = 10_000_000;

    /// The standard set.
    pub const STANDARD: Thresholds = Thresholds {
        th0: 2.0,
        z2: 500,
        th2: 50,
        z3: 100,
        th3: 50,
        zdf5: 500,
        th6: 2,
        zdf7: 300,
        th8: 2.0,
        zf8: 500,
        th10: 100,
        th13: 100,
        th14: 100,
    };
}

/// The standard set.
impl Default for Thresholds {
    fn default() -> Thresholds {
        Thresholds::STANDARD
    }
}
