//! The two versions' `jcc_feed`, under the names that `bench/turns` gives them.

use jcc_types::Thresholds;
use measure::Feed;

jcc_types::export! {
    fn older = jcc_feed_before() reads (sizes: [u32], prices: [f64]) writes (sheet: [u8])
}

/// A version from before the tenths of 13 and 14 is handed whole units.
fn before(t: &Thresholds, sizes: &[u32], prices: &[f64], sheet: &mut [u8]) -> u32 {
    if takes_tenths() {
        return older(t, sizes, prices, sheet);
    }
    let units = Thresholds {
        th13: t.th13 / Thresholds::UNIT,
        th14: t.th14 / Thresholds::UNIT,
        ..*t
    };
    older(&units, sizes, prices, sheet)
}

/// Whether the older version takes the greatest threshold in tenths, which is beyond all units.
fn takes_tenths() -> bool {
    let most = Thresholds {
        th13: Thresholds::MOST_TENTHS,
        ..Thresholds::STANDARD
    };
    older(&most, &[], &[], &mut []) == 0
}

jcc_types::export! {
    fn after = jcc_feed_after() reads (sizes: [u32], prices: [f64]) writes (sheet: [u8])
}

pub struct Version {
    pub name: &'static str,
    pub feed: Feed,
}

pub const VERSIONS: [Version; 2] = [
    Version {
        name: "before",
        feed: before,
    },
    Version {
        name: "after",
        feed: after,
    },
];
