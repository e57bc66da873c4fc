//! The recognisers and their numbers.

use std::fmt;

/// A recogniser. Its number is the scope's.
#[derive(Clone, Copy, Debug, PartialEq, Eq, PartialOrd, Ord, Hash)]
#[repr(u32)]
pub enum Recogniser {
    /// 0, `san_xing_xian`: umbrella: hammer or hanging man.
    SanXingXian,
    /// 1, `ten_mo`: engulfing bar.
    TenMo,
    /// 2, `wu_yun_gai_ding`: dark cloud cover.
    WuYunGaiDing,
    /// 3, `ci_tou`: piercing line.
    CiTou,
    /// 4, `san_fa_v20221118`: rising or falling three methods, in windows of 5 to 8 bars.
    SanFaV20221118,
    /// 5, `san_fa_v20221115`: rising or falling three methods of six bars.
    SanFaV20221115,
    /// 6, `xing_xian`: morning or evening star.
    XingXian,
    /// 7, `fen_shou_xian`: separating lines.
    FenShouXian,
    /// 8, `zhu_huo_xian`: arrow on the string or candle in the wind.
    ZhuHuoXian,
    /// 9, `yun_xian`: harami.
    YunXian,
    /// 10, `ping_tou`: tweezers bottom or top.
    PingTou,
    /// 11, `two_crow`: two crows.
    TwoCrow,
    /// 12, `three_crow`: three crows.
    ThreeCrow,
    /// 13, `szx`: doji.
    Szx,
    /// 14, `san_szx`: three doji.
    SanSzx,
    /// 15, `fan_ji_xian`: counterattack lines.
    FanJiXian,
    /// 16, `gap_yin_yang`: gap with side-by-side bars.
    GapYinYang,
    /// 17, `ta_xing`: tower top or bottom, in windows of 5 to 9 bars.
    TaXing,
}

impl Recogniser {
    /// All recognisers, in the order of their numbers.
    pub const ALL: [Recogniser; 18] = [
        Recogniser::SanXingXian,
        Recogniser::TenMo,
        Recogniser::WuYunGaiDing,
        Recogniser::CiTou,
        Recogniser::SanFaV20221118,
        Recogniser::SanFaV20221115,
        Recogniser::XingXian,
        Recogniser::FenShouXian,
        Recogniser::ZhuHuoXian,
        Recogniser::YunXian,
        Recogniser::PingTou,
        Recogniser::TwoCrow,
        Recogniser::ThreeCrow,
        Recogniser::Szx,
        Recogniser::SanSzx,
        Recogniser::FanJiXian,
        Recogniser::GapYinYang,
        Recogniser::TaXing,
    ];

    /// The recogniser of a number from 0 to 17.
    pub fn from_number(number: u32) -> Option<Recogniser> {
        let place = usize::try_from(number).ok()?;
        Recogniser::ALL.get(place).copied()
    }

    /// The number, 0 to 17.
    pub const fn number(self) -> u32 {
        self as u32
    }

    /// The source's name, without `jcc_` and, where no other has the same name, without its version.
    pub const fn name(self) -> &'static str {
        match self {
            Recogniser::SanXingXian => "san_xing_xian",
            Recogniser::TenMo => "ten_mo",
            Recogniser::WuYunGaiDing => "wu_yun_gai_ding",
            Recogniser::CiTou => "ci_tou",
            Recogniser::SanFaV20221118 => "san_fa_v20221118",
            Recogniser::SanFaV20221115 => "san_fa_v20221115",
            Recogniser::XingXian => "xing_xian",
            Recogniser::FenShouXian => "fen_shou_xian",
            Recogniser::ZhuHuoXian => "zhu_huo_xian",
            Recogniser::YunXian => "yun_xian",
            Recogniser::PingTou => "ping_tou",
            Recogniser::TwoCrow => "two_crow",
            Recogniser::ThreeCrow => "three_crow",
            Recogniser::Szx => "szx",
            Recogniser::SanSzx => "san_szx",
            Recogniser::FanJiXian => "fan_ji_xian",
            Recogniser::GapYinYang => "gap_yin_yang",
            Recogniser::TaXing => "ta_xing",
        }
    }
}

/// Writes the name.
impl fmt::Display for Recogniser {
    fn fmt(&self, f: &mut fmt::Formatter<'_>) -> fmt::Result {
        f.pad(self.name())
    }
}

#[cfg(test)]
mod tests {
    use super::*;

    #[test]
    fn numbers() {
        for number in 0..18 {
            let recogniser = Recogniser::from_number(number).expect("a recogniser");
            assert_eq!(recogniser.number(), number);
        }
        assert_eq!(Recogniser::from_number(18), None);
        assert_eq!(Recogniser::from_number(u32::MAX), None);
        assert_eq!(Recogniser::SanFaV20221118.number(), 4);
        assert_eq!(Recogniser::ThreeCrow.number(), 12);
        assert_eq!(Recogniser::TaXing.to_string(), "ta_xing");
    }
}
