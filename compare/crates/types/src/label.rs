//! The labels, their codes and the pairs that the recognisers give.

/// The texts of the labels, in the order of their codes.
pub const LABELS: [&str; 38] = [
    "其他",
    "任意",
    "满足",
    "锤子",
    "上吊",
    "看涨吞没",
    "看跌吞没",
    "上升三法",
    "下降三法",
    "5K",
    "6K",
    "7K",
    "8K",
    "9K",
    "启明星",
    "黄昏星",
    "中间十字",
    "下跌分手",
    "上升分手",
    "箭在弦",
    "风中烛",
    "看空",
    "看多",
    "底部",
    "顶部",
    "实体标准",
    "常规",
    "加强",
    "半加强",
    "蜻蜓十字线",
    "墓碑十字线",
    "长腿十字线",
    "十字线",
    "北方",
    "看涨反击线",
    "看跌反击线",
    "向上跳空",
    "向下跳空",
];

/// The code of a text, if it is a label.
pub fn code_of(text: &str) -> Option<u32> {
    LABELS.iter().position(|l| *l == text).map(|c| c as u32)
}

/// A label; its number is 01's code.
#[derive(Clone, Copy, Debug, PartialEq, Eq)]
#[repr(u8)]
pub enum Label {
    Other,
    Any,
    Met,
    Hammer,
    HangingMan,
    BullishEngulfing,
    BearishEngulfing,
    RisingThree,
    FallingThree,
    K5,
    K6,
    K7,
    K8,
    K9,
    MorningStar,
    EveningStar,
    MiddleDoji,
    FallingSeparation,
    RisingSeparation,
    ArrowOnString,
    CandleInWind,
    Bearish,
    Bullish,
    Bottom,
    Top,
    StandardBody,
    Regular,
    Strong,
    HalfStrong,
    DragonflyDoji,
    GravestoneDoji,
    LongLeggedDoji,
    Doji,
    Northern,
    BullishCounterattack,
    BearishCounterattack,
    GapUp,
    GapDown,
}

/// What a recogniser gives: v1 and v2.
#[derive(Clone, Copy, Debug, PartialEq, Eq)]
pub struct Pair(pub Label, pub Label);

impl Pair {
    /// The export's form of a pair.
    pub const fn number(self) -> u32 {
        self.0 as u32 * 256 + self.1 as u32
    }

    /// The sheet's form of a pair.
    pub const fn codes(self) -> [u8; 2] {
        [self.0 as u8, self.1 as u8]
    }
}
