//! The labels and their texts.

use std::fmt;

/// A label. Its number is its code.
#[derive(Clone, Copy, Debug, PartialEq, Eq, PartialOrd, Ord, Hash)]
#[repr(u8)]
pub enum Label {
    /// 其他
    Other,
    /// 任意
    Any,
    /// 满足
    Met,
    /// 锤子
    Hammer,
    /// 上吊
    HangingMan,
    /// 看涨吞没
    BullishEngulfing,
    /// 看跌吞没
    BearishEngulfing,
    /// 上升三法
    RisingThreeMethods,
    /// 下降三法
    FallingThreeMethods,
    /// 5K
    Bars5,
    /// 6K
    Bars6,
    /// 7K
    Bars7,
    /// 8K
    Bars8,
    /// 9K
    Bars9,
    /// 启明星
    MorningStar,
    /// 黄昏星
    EveningStar,
    /// 中间十字
    MiddleDoji,
    /// 下跌分手
    FallingSeparatingLines,
    /// 上升分手
    RisingSeparatingLines,
    /// 箭在弦
    ArrowOnString,
    /// 风中烛
    CandleInWind,
    /// 看空
    Bearish,
    /// 看多
    Bullish,
    /// 底部
    Bottom,
    /// 顶部
    Top,
    /// 实体标准
    StandardBody,
    /// 常规
    Regular,
    /// 加强
    Strong,
    /// 半加强
    HalfStrong,
    /// 蜻蜓十字线
    DragonflyDoji,
    /// 墓碑十字线
    GravestoneDoji,
    /// 长腿十字线
    LongLeggedDoji,
    /// 十字线
    CommonDoji,
    /// 北方
    Northern,
    /// 看涨反击线
    BullishCounterattack,
    /// 看跌反击线
    BearishCounterattack,
    /// 向上跳空
    GapUp,
    /// 向下跳空
    GapDown,
}

impl Label {
    /// All labels, in the order of their codes.
    pub const ALL: [Label; 38] = [
        Label::Other,
        Label::Any,
        Label::Met,
        Label::Hammer,
        Label::HangingMan,
        Label::BullishEngulfing,
        Label::BearishEngulfing,
        Label::RisingThreeMethods,
        Label::FallingThreeMethods,
        Label::Bars5,
        Label::Bars6,
        Label::Bars7,
        Label::Bars8,
        Label::Bars9,
        Label::MorningStar,
        Label::EveningStar,
        Label::MiddleDoji,
        Label::FallingSeparatingLines,
        Label::RisingSeparatingLines,
        Label::ArrowOnString,
        Label::CandleInWind,
        Label::Bearish,
        Label::Bullish,
        Label::Bottom,
        Label::Top,
        Label::StandardBody,
        Label::Regular,
        Label::Strong,
        Label::HalfStrong,
        Label::DragonflyDoji,
        Label::GravestoneDoji,
        Label::LongLeggedDoji,
        Label::CommonDoji,
        Label::Northern,
        Label::BullishCounterattack,
        Label::BearishCounterattack,
        Label::GapUp,
        Label::GapDown,
    ];

    /// The label of a code from 0 to 37.
    pub fn from_code(code: u8) -> Option<Label> {
        Label::ALL.get(usize::from(code)).copied()
    }

    /// The label with exactly this text.
    pub fn from_text(text: &str) -> Option<Label> {
        Label::ALL.into_iter().find(|label| label.text() == text)
    }

    /// The code, 0 to 37.
    pub const fn code(self) -> u8 {
        self as u8
    }

    /// The source's text.
    pub const fn text(self) -> &'static str {
        match self {
            Label::Other => "其他",
            Label::Any => "任意",
            Label::Met => "满足",
            Label::Hammer => "锤子",
            Label::HangingMan => "上吊",
            Label::BullishEngulfing => "看涨吞没",
            Label::BearishEngulfing => "看跌吞没",
            Label::RisingThreeMethods => "上升三法",
            Label::FallingThreeMethods => "下降三法",
            Label::Bars5 => "5K",
            Label::Bars6 => "6K",
            Label::Bars7 => "7K",
            Label::Bars8 => "8K",
            Label::Bars9 => "9K",
            Label::MorningStar => "启明星",
            Label::EveningStar => "黄昏星",
            Label::MiddleDoji => "中间十字",
            Label::FallingSeparatingLines => "下跌分手",
            Label::RisingSeparatingLines => "上升分手",
            Label::ArrowOnString => "箭在弦",
            Label::CandleInWind => "风中烛",
            Label::Bearish => "看空",
            Label::Bullish => "看多",
            Label::Bottom => "底部",
            Label::Top => "顶部",
            Label::StandardBody => "实体标准",
            Label::Regular => "常规",
            Label::Strong => "加强",
            Label::HalfStrong => "半加强",
            Label::DragonflyDoji => "蜻蜓十字线",
            Label::GravestoneDoji => "墓碑十字线",
            Label::LongLeggedDoji => "长腿十字线",
            Label::CommonDoji => "十字线",
            Label::Northern => "北方",
            Label::BullishCounterattack => "看涨反击线",
            Label::BearishCounterattack => "看跌反击线",
            Label::GapUp => "向上跳空",
            Label::GapDown => "向下跳空",
        }
    }
}

/// Writes the text.
impl fmt::Display for Label {
    fn fmt(&self, f: &mut fmt::Formatter<'_>) -> fmt::Result {
        f.pad(self.text())
    }
}

/// What a recogniser gives for a bar.
#[derive(Clone, Copy, Debug, PartialEq, Eq, PartialOrd, Ord, Hash)]
pub struct Pair {
    /// The first label: [`Label::Other`] if the pattern is not there.
    pub v1: Label,
    /// The second label.
    pub v2: Label,
}

/// Writes both texts, as in 看空/任意.
impl fmt::Display for Pair {
    fn fmt(&self, f: &mut fmt::Formatter<'_>) -> fmt::Result {
        write!(f, "{}/{}", self.v1, self.v2)
    }
}

#[cfg(test)]
mod tests {
    use super::*;

    /// Document 01's list of codes.
    const TEXTS: &str = "其他 任意 满足 锤子 上吊 看涨吞没 看跌吞没 上升三法 下降三法 5K 6K 7K 8K 9K \
        启明星 黄昏星 中间十字 下跌分手 上升分手 箭在弦 风中烛 看空 看多 底部 顶部 实体标准 常规 加强 半加强 \
        蜻蜓十字线 墓碑十字线 长腿十字线 十字线 北方 看涨反击线 看跌反击线 向上跳空 向下跳空";

    #[test]
    fn codes_and_texts() {
        let texts: Vec<&str> = TEXTS.split_whitespace().collect();
        assert_eq!(texts.len(), Label::ALL.len());
        for (code, text) in texts.into_iter().enumerate() {
            let label = Label::from_code(code as u8).expect("a label");
            assert_eq!(usize::from(label.code()), code);
            assert_eq!(label.text(), text);
            assert_eq!(label.to_string(), text);
            assert_eq!(Label::from_text(text), Some(label));
            assert!(text.len() <= 15);
        }
    }

    #[test]
    fn no_labels() {
        assert_eq!(Label::from_code(38), None);
        assert_eq!(Label::from_code(u8::MAX), None);
        for text in ["", "5k", "其", "其他 "] {
            assert_eq!(Label::from_text(text), None);
        }
    }

    #[test]
    fn pairs_as_text() {
        let pair = Pair {
            v1: Label::Bearish,
            v2: Label::Any,
        };
        assert_eq!(pair.to_string(), "看空/任意");
    }
}
