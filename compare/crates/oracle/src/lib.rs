//! The repository's own functions as a judge: `jcc.rs` built unchanged (see `build.rs`) over the
//! smallest stand-ins for what it leans on.
//!
//! The modules have the names that `jcc.rs` uses. `analyze` and `objects` stand for the crate
//! `czsc_core`, the others for modules of the crate `czsc_signals`.

extern crate self as czsc_core;

pub mod analyze;
pub mod corner;
pub mod objects;
pub mod params;
pub mod types;
pub mod utils;

/// The repository's `jcc.rs`. One of its functions, over strokes, is not called here.
#[allow(dead_code, clippy::all)]
mod jcc {
    include!(concat!(env!("OUT_DIR"), "/jcc.rs"));
}

use analyze::CZSC;
use corner::Corner;
use jcc_types::{Bar, RECOGNISERS, Thresholds, code_of};
use objects::bar::RawBar;
use objects::freq::Freq;
use objects::signal::Signal;
use params::{ParamView, Value};
use std::collections::HashMap;
use types::TaCache;

type Function = fn(&CZSC, &ParamView, &mut TaCache) -> Vec<Signal>;

/// The repository's functions, by recogniser.
const FUNCTIONS: [Function; RECOGNISERS] = [
    jcc::jcc_san_xing_xian_v221023,
    jcc::jcc_ten_mo_v221028,
    jcc::jcc_wu_yun_gai_ding_v221101,
    jcc::jcc_ci_tou_v221101,
    jcc::jcc_san_fa_v20221118,
    jcc::jcc_san_fa_v20221115,
    jcc::jcc_xing_xian_v221118,
    jcc::jcc_fen_shou_xian_v20221113,
    jcc::jcc_zhu_huo_xian_v221027,
    jcc::jcc_yun_xian_v221118,
    jcc::jcc_ping_tou_v221113,
    jcc::jcc_two_crow_v221108,
    jcc::jcc_three_crow_v221108,
    jcc::jcc_szx_v221111,
    jcc::jcc_san_szx_v221122,
    jcc::jcc_fan_ji_xian_v221121,
    jcc::jcc_gap_yin_yang_v221121,
    jcc::jcc_ta_xing_v221124,
];

/// What the repository says of a call, an answer being in the export's form.
#[derive(Clone, Copy, Debug, PartialEq, Eq)]
pub enum Verdict {
    /// Its answer, which everyone must give.
    Answer(u32),
    /// Its answer in one of 01's corners, where nobody is held to it.
    Open(Corner, u32),
    /// None: the threshold of 13 or 14 is no multiple of ten, and the repository takes whole units.
    NoAnswer,
}

impl Verdict {
    /// The answer that everyone must give.
    pub fn answer(self) -> Option<u32> {
        match self {
            Verdict::Answer(answer) => Some(answer),
            Verdict::Open(..) | Verdict::NoAnswer => None,
        }
    }
}

/// A history and parameters for the repository's functions. Both are kept between calls, so that
/// a call costs what it costs in the repository.
pub struct Oracle {
    czsc: CZSC,
    params: [HashMap<String, Value>; RECOGNISERS],
    /// The offsets in `params`; 0 for none.
    offsets: [u32; RECOGNISERS],
    /// Whether the thresholds that were set are such as the repository takes.
    has_units: [bool; RECOGNISERS],
    cache: TaCache,
}

impl Oracle {
    /// No bars, the standard set.
    pub fn new() -> Oracle {
        let mut oracle = Oracle {
            czsc: CZSC {
                bars_raw: Vec::new(),
                bi_list: Vec::new(),
                freq: Freq::D,
            },
            params: std::array::from_fn(|_| HashMap::new()),
            offsets: [0; RECOGNISERS],
            has_units: [true; RECOGNISERS],
            cache: TaCache,
        };
        oracle.set_thresholds(&Thresholds::STANDARD);
        oracle
    }

    pub fn set_history(&mut self, bars: &[Bar]) {
        self.czsc.bars_raw.clear();
        self.czsc.bars_raw.extend(bars.iter().map(raw_bar));
    }

    /// The history grows by one bar.
    pub fn push(&mut self, bar: &Bar) {
        self.czsc.bars_raw.push(raw_bar(bar));
    }

    /// The `th` of 0 and 8 are read by `as_f64`, all others by `as_u64`. Of tenths the repository is
    /// handed whole units.
    pub fn set_thresholds(&mut self, t: &Thresholds) {
        let whole = |n: u32| Value::Whole(n.into());
        self.set(0, "th", Value::Real(t.th0));
        self.set(2, "z", whole(t.z2));
        self.set(2, "th", whole(t.th2));
        self.set(3, "z", whole(t.z3));
        self.set(3, "th", whole(t.th3));
        self.set(5, "zdf", whole(t.zdf5));
        self.set(6, "th", whole(t.th6));
        self.set(7, "zdf", whole(t.zdf7));
        self.set(8, "th", Value::Real(t.th8));
        self.set(8, "zf", whole(t.zf8));
        self.set(10, "th", whole(t.th10));
        for (recogniser, tenths) in [(13, t.th13), (14, t.th14)] {
            self.has_units[recogniser] = tenths.is_multiple_of(Thresholds::UNIT);
            self.set(recogniser, "th", whole(tenths / Thresholds::UNIT));
        }
    }

    /// What the repository says of a call on the history and with the thresholds that it was handed:
    /// the one place that knows where it has no say. The offset is at least 1.
    pub fn verdict(&mut self, recogniser: usize, offset: u32) -> Verdict {
        if !self.has_units[recogniser] {
            return Verdict::NoAnswer;
        }
        let answer = self.label(recogniser, offset);
        match Corner::of(recogniser, offset, &self.czsc.bars_raw) {
            Some(corner) => Verdict::Open(corner, answer),
            None => Verdict::Answer(answer),
        }
    }

    /// The repository's answer in the export's form, v1 × 256 + v2, in a corner too. Asked of 13 or
    /// 14 between whole units, it stops: an answer for other thresholds must not pass for one. The
    /// offset is at least 1.
    pub fn label(&mut self, recogniser: usize, offset: u32) -> u32 {
        assert!(self.has_units[recogniser], "no whole units: no answer");
        if self.offsets[recogniser] != offset {
            self.offsets[recogniser] = offset;
            self.set(recogniser, "di", Value::Whole(offset.into()));
        }
        let params = ParamView::new(&self.params[recogniser]);
        let signals = FUNCTIONS[recogniser](&self.czsc, &params, &mut self.cache);
        let [signal] = signals.as_slice() else {
            panic!("recogniser {recogniser} gave {} signals", signals.len());
        };
        code(&signal.v1) * 256 + code(&signal.v2)
    }

    fn set(&mut self, recogniser: usize, key: &str, value: Value) {
        match self.params[recogniser].get_mut(key) {
            Some(old) => *old = value,
            None => {
                self.params[recogniser].insert(key.to_string(), value);
            }
        }
    }
}

impl Default for Oracle {
    fn default() -> Oracle {
        Oracle::new()
    }
}

fn raw_bar(bar: &Bar) -> RawBar {
    RawBar {
        open: bar.open,
        close: bar.close,
        high: bar.high,
        low: bar.low,
    }
}

fn code(text: &str) -> u32 {
    code_of(text).unwrap_or_else(|| panic!("the repository gave {text}, which is no label of 01"))
}
