//! The recognisers by number, at an offset.

use crate::measures::up_to;
use crate::rules;
use jcc_types::{Bar, Pair, Thresholds};

/// The pair of a recogniser below 18 for the bar that an offset of at least 1 names.
pub fn label(recogniser: usize, offset: u32, t: &Thresholds, bars: &[Bar]) -> Pair {
    let up = up_to(bars, offset);
    match recogniser {
        0 => rules::san_xing_xian(up, t.th0),
        1 => rules::ten_mo(up),
        2 => rules::wu_yun_gai_ding(up, t.z2, t.th2),
        3 => rules::ci_tou(up, t.z3, t.th3),
        4 => rules::san_fa_v20221118(up),
        5 => rules::san_fa_v20221115(up, t.zdf5),
        6 => rules::xing_xian(up, t.th6),
        7 => rules::fen_shou_xian(up, t.zdf7),
        8 => rules::zhu_huo_xian(up, t.th8, t.zf8),
        9 => rules::yun_xian(up),
        10 => rules::ping_tou(up, t.th10),
        11 => rules::two_crow(up),
        12 => rules::three_crow(up, bars),
        13 => rules::szx(up, t.th13),
        14 => rules::san_szx(up, t.th14),
        15 => rules::fan_ji_xian(up),
        16 => rules::gap_yin_yang(up),
        17 => rules::ta_xing(up),
        _ => unreachable!("refusal 1 comes first"),
    }
}
