//! The eighteen recognisers. Each takes the bars up to the judged one, oldest first (p of them),
//! and its thresholds. b1 is the judged bar, b2 the one before.

use crate::measures::{
    Quarter, body, highest, is_doji, last, lower, lowest, max, min, up_to, upper, variance,
};
use jcc_types::Label::{self, *};
use jcc_types::{Bar, Pair};

/// 01's short pair A.
const A: Pair = Pair(Other, Other);

/// 01's short pair B.
const B: Pair = Pair(Other, Any);

/// `met` if the condition holds, otherwise `Other`.
fn label_if(condition: bool, met: Label) -> Label {
    if condition { met } else { Other }
}

/// Where v2 of 0, 1, 7 and 8 needs the quarter, it needs 22 bars up to the judged one.
fn quarter(up: &[Bar]) -> Option<Quarter> {
    (up.len() >= 22).then(|| Quarter::of(up))
}

/// v2 of 0 and 8: the side of the quarter on which the judged bar stands, the low side first.
fn side(up: &[Bar], b1: &Bar, low: Label, high: Label) -> Label {
    match quarter(up) {
        Some(q) if q.low_side(b1) => low,
        Some(q) if q.high_side(b1) => high,
        _ => Other,
    }
}

/// 0.
pub fn san_xing_xian(up: &[Bar], th: f64) -> Pair {
    let [.., b1] = up else { return A };
    let t = f64::from((th * 100.0) as i32);
    let met = lower(b1) > body(b1) * t / 100.0 && upper(b1) < 0.2 * body(b1);
    Pair(label_if(met, Met), side(up, b1, Hammer, HangingMan))
}

/// 1.
pub fn ten_mo(up: &[Bar]) -> Pair {
    let [.., b2, b1] = up else { return A };
    let met = b1.high > b2.high && b1.low < b2.low;
    Pair(label_if(met, Met), engulfing(up, b2, b1))
}

fn engulfing(up: &[Bar], b2: &Bar, b1: &Bar) -> Label {
    let Some(q) = quarter(up) else { return Other };
    let bullish = b1.close > b1.open && b1.close > b2.high && b1.open < b2.low;
    let bearish = b1.close < b1.open && b1.close < b2.low && b1.open > b2.high;
    if q.low_side(b1) && bullish {
        BullishEngulfing
    } else if q.high_side(b1) && bearish {
        BearishEngulfing
    } else {
        Other
    }
}

/// 2.
pub fn wu_yun_gai_ding(up: &[Bar], z: u32, th: u32) -> Pair {
    let [before @ .., b2, b1] = up else { return B };
    if up.len() < 12 {
        return B;
    }
    let rise = (b2.close - b2.open) / b2.open * 10000.0;
    let bound = (b2.close + b2.open) * (f64::from(th) / 100.0);
    let met = rise > f64::from(z)
        && b1.open > b2.high
        && b1.close < bound
        && b2.close >= highest(last(before, 10), |b| b.close);
    Pair(label_if(met, Met), Any)
}

/// 3.
pub fn ci_tou(up: &[Bar], z: u32, th: u32) -> Pair {
    let [.., b2, b1] = up else { return B };
    if up.len() < 16 {
        return B;
    }
    let fell = b2.close < b2.open && 1.0 - b2.close / b2.open > f64::from(z) / 10000.0;
    let bound = b2.close + (b2.open - b2.close) * (f64::from(th) / 100.0);
    let met = fell && b1.open < b2.low && b1.close > bound;
    Pair(label_if(met, Met), Any)
}

/// The label of a window of n bars, 5 to 9.
fn size_label(n: usize) -> Label {
    [K5, K6, K7, K8, K9][n - 5]
}

/// The first window of 5 to `most` bars that `check` gives a label other than `Other`.
fn first_match(up: &[Bar], most: usize, check: fn(&[Bar]) -> Label) -> Pair {
    for n in 5..=most.min(up.len()) {
        let found = check(last(up, n));
        if found != Other {
            return Pair(found, size_label(n));
        }
    }
    A
}

/// 4. Past the history's start the repository tries the same bars again: no new match.
pub fn san_fa_v20221118(up: &[Bar]) -> Pair {
    first_match(up, 8, three_methods)
}

fn three_methods(window: &[Bar]) -> Label {
    let [first, middle @ .., newest] = window else {
        return Other;
    };
    let top_close = highest(middle, |b| b.close);
    let low_close = lowest(middle, |b| b.close);
    let top = highest(middle, |b| b.high);
    let bottom = lowest(middle, |b| b.low);
    let rising = newest.close > newest.open
        && first.close > first.open
        && newest.close > first.high
        && newest.close > top
        && top > first.high
        && bottom > first.open
        && first.close > top_close;
    let falling = newest.close < newest.open
        && first.close < first.open
        && newest.close < first.low
        && first.low > bottom
        && bottom > newest.close
        && top < first.open
        && first.close < low_close;
    if rising {
        RisingThree
    } else if falling {
        FallingThree
    } else {
        Other
    }
}

/// The change between two closes in hundredths of a percent of the first.
fn change(from: &Bar, to: &Bar) -> f64 {
    ((from.close - to.close) / from.close).abs() * 10000.0
}

/// 5.
pub fn san_fa_v20221115(up: &[Bar], zdf: u32) -> Pair {
    let [.., b6, b5, b4, b3, b2, b1] = up else {
        return A;
    };
    let zdf = f64::from(zdf);
    let top = max(max(b2.high, b3.high), b4.high);
    let bottom = min(min(b2.low, b3.low), b4.low);
    let met = change(b2, b1) >= zdf && change(b6, b5) > zdf && b5.high > top;
    let rising = b5.close > b5.open
        && b1.close > b1.open
        && b1.close > b5.high
        && b1.close > top
        && b1.open > b2.close;
    let falling = b5.close < b5.open
        && b1.close < b1.open
        && b1.close < b5.low
        && b1.close < bottom
        && b1.open < b2.close;
    let v2 = if rising {
        RisingThree
    } else {
        label_if(falling, FallingThree)
    };
    Pair(label_if(met, Met), v2)
}

/// 6.
pub fn xing_xian(up: &[Bar], th: u32) -> Pair {
    let [.., b3, b2, b1] = up else { return B };
    let (x3, x2, x1) = (body(b3), body(b2), body(b1));
    let sized = x2 * f64::from(th) < x3 && x3 < x2 + x1;
    let morning = b3.high > b2.high
        && b2.high < b1.high
        && b3.low > b2.low
        && b2.low < b1.low
        && b3.close < b3.open
        && b1.close > b1.open
        && b1.open > max(b2.close, b2.open);
    let evening = b3.high < b2.high
        && b2.high > b1.high
        && b3.low < b2.low
        && b2.low > b1.low
        && b3.close > b3.open
        && b1.close < b1.open
        && b1.open < min(b2.close, b2.open);
    let v1 = if sized && morning {
        MorningStar
    } else {
        label_if(sized && evening, EveningStar)
    };
    let v2 = if b2.close == b2.open { MiddleDoji } else { Any };
    Pair(v1, v2)
}

/// 7. Equal opens bind the first alternative only.
pub fn fen_shou_xian(up: &[Bar], zdf: u32) -> Pair {
    let [.., b2, b1] = up else { return A };
    let met = (b1.open == b2.open && b1.close < b2.low) || b1.close > b2.high;
    Pair(label_if(met, Met), separation(up, b2, b1, f64::from(zdf)))
}

fn separation(up: &[Bar], b2: &Bar, b1: &Bar, zdf: f64) -> Label {
    let Some(q) = quarter(up) else { return Other };
    let falling = q.low_side(b1)
        && b1.open == b2.open
        && b1.close < b2.low
        && b2.close > b2.open
        && (b2.close - b1.close) / b2.close * 10000.0 > zdf;
    let rising = q.high_side(b1)
        && b1.open == b2.open
        && b1.close > b2.high
        && b2.close < b2.open
        && (b1.close - b2.close) / b2.close * 10000.0 > zdf;
    if falling {
        FallingSeparation
    } else {
        label_if(rising, RisingSeparation)
    }
}

/// 8.
pub fn zhu_huo_xian(up: &[Bar], th: f64, zf: u32) -> Pair {
    let [.., b1] = up else { return A };
    let wide = b1.low != 0.0 && (b1.high - b1.low) / b1.low * 10000.0 >= f64::from(zf);
    let met = upper(b1) > body(b1) * th / 100.0
        && lower(b1) < 0.2 * body(b1)
        && lower(b1) < 0.5 * upper(b1)
        && wide;
    Pair(
        label_if(met, Met),
        side(up, b1, ArrowOnString, CandleInWind),
    )
}

/// The longer shadow.
fn shadow(b: &Bar) -> f64 {
    max(upper(b), lower(b))
}

/// 9.
pub fn yun_xian(up: &[Bar]) -> Pair {
    let [.., b2, b1] = up else { return B };
    let sized = body(b2) > shadow(b2) && body(b1) < shadow(b1);
    let inside_rise =
        b2.close > b1.close && b1.close > b2.open && b2.close > b1.open && b1.open > b2.open;
    let inside_fall =
        b2.close < b1.close && b1.close < b2.open && b2.close < b1.open && b1.open < b2.open;
    let v1 = if sized && inside_fall {
        Bullish
    } else {
        label_if(sized && inside_rise, Bearish)
    };
    Pair(v1, Any)
}

/// 10.
pub fn ping_tou(up: &[Bar], th: u32) -> Pair {
    let [.., b2, b1] = up else { return B };
    let near = |x: f64, y: f64| (x - y).abs() * 10000.0 / max(x, y) < f64::from(th);
    let v1 = if near(b2.low, b1.low) {
        Bottom
    } else {
        label_if(near(b2.high, b1.high), Top)
    };
    let standard = body(b2) > max(body(b1), upper(b1));
    Pair(v1, if standard { StandardBody } else { Any })
}

/// 11.
pub fn two_crow(up: &[Bar]) -> Pair {
    let [.., b3, b2, b1] = up else { return B };
    let long_rise = b3.close > b3.open && body(b3) > shadow(b3);
    let gap = b2.open > b2.close && b2.close > b3.high;
    let falls = b1.close < b1.open && b1.close < b2.close;
    Pair(label_if(long_rise && gap && falls, Bearish), Any)
}

/// 12. Its gate reads the whole history, newest bars included, wherever the judged bar is.
pub fn three_crow(up: &[Bar], history: &[Bar]) -> Pair {
    let [.., b3, b2, b1] = up else { return A };
    if gate_shut(history, b3) || !three_falls(b3, b2, b1) {
        return A;
    }
    let inside = |older: &Bar, newer: &Bar| older.close <= newer.open && newer.open <= older.open;
    let below = |older: &Bar, newer: &Bar| newer.open < older.close;
    if inside(b2, b1) && inside(b3, b2) {
        Pair(Met, Regular)
    } else if below(b2, b1) && below(b3, b2) {
        Pair(Met, Strong)
    } else if (inside(b2, b1) && b3.open < b3.close) || (inside(b3, b2) && below(b2, b1)) {
        Pair(Met, HalfStrong)
    } else {
        A
    }
}

fn gate_shut(history: &[Bar], b3: &Bar) -> bool {
    history.len() > 23 && b3.high < Quarter::of(up_to(history, 3)).upper_bound()
}

fn three_falls(b3: &Bar, b2: &Bar, b1: &Bar) -> bool {
    let short_lower = |b: &Bar| b.close - b.low < 0.5 * (b.open - b.close);
    let short_upper = |b: &Bar| b.high - b.open < b.open - b.close;
    [b1, b2, b3].iter().all(|b| b.close < b.open)
        && b3.close > b2.close
        && b2.close > b1.close
        && b3.high > b2.high
        && b2.high > b1.high
        && [b1, b2, b3]
            .iter()
            .all(|b| short_lower(b) && short_upper(b))
}

/// 13.
pub fn szx(up: &[Bar], th: u32) -> Pair {
    let [.., b2, b1] = up else { return A };
    if up.len() < 11 {
        return A;
    }
    let northern = b2.close > b2.open && body(b2) > (upper(b2) + lower(b2)) * 3.0;
    let v1 = if is_doji(b1, th) {
        doji_kind(b2, b1)
    } else {
        Other
    };
    Pair(v1, if northern { Northern } else { Any })
}

fn doji_kind(b2: &Bar, b1: &Bar) -> Label {
    let (upper, lower) = (upper(b1), lower(b1));
    if lower > upper * 2.0 {
        DragonflyDoji
    } else if lower == 0.0 || lower < body(b1) {
        GravestoneDoji
    } else if lower > body(b2) && upper > body(b2) {
        LongLeggedDoji
    } else {
        Doji
    }
}

/// 14.
pub fn san_szx(up: &[Bar], th: u32) -> Pair {
    if up.len() < 8 {
        return B;
    }
    let count = last(up, 5).iter().filter(|b| is_doji(b, th)).count();
    Pair(label_if(count >= 3, Met), Any)
}

/// 15. Its bars are named oldest first.
pub fn fan_ji_xian(up: &[Bar]) -> Pair {
    let [.., b1, b2, b3] = up else { return B };
    if up.len() < 21 {
        return B;
    }
    let q = Quarter::of(up);
    let height = (b2.close - b2.open).abs();
    let met = b2.close != b2.open
        && (b3.open - b2.close).abs() / height >= 1.0
        && (b3.close - b2.close).abs() / height <= 0.1
        && height / q.gap() >= 0.02;
    if !met {
        return B;
    }
    let bullish = q.low_side(b1) && b1.close > b2.close && b2.open > b2.close && b2.close > b3.open;
    let bearish =
        q.high_side(b1) && b2.close > b1.close && b3.open > b2.close && b2.close > b2.open;
    if bullish {
        Pair(Met, BullishCounterattack)
    } else if bearish {
        Pair(Met, BearishCounterattack)
    } else {
        Pair(Met, Any)
    }
}

/// 16.
pub fn gap_yin_yang(up: &[Bar]) -> Pair {
    let [.., b3, b2, b1] = up else { return B };
    if up.len() < 7 {
        return B;
    }
    let alike = variance([body(b1), body(b2)].into_iter()) < 0.2;
    let gap_up = min(b1.low, b2.low) > b3.high && b2.close > b2.open && b1.close < b1.open;
    let gap_down = max(b1.high, b2.high) < b3.low && b2.close < b2.open && b1.close > b1.open;
    let v1 = if gap_up && alike {
        GapUp
    } else {
        label_if(gap_down && alike, GapDown)
    };
    Pair(v1, Any)
}

/// 17.
pub fn ta_xing(up: &[Bar]) -> Pair {
    first_match(up, 9, tower)
}

fn tower(window: &[Bar]) -> Label {
    let [first, middle @ .., newest] = window else {
        return Other;
    };
    let Some(second) = second_body(window) else {
        return Other;
    };
    if min(body(first), body(newest)) < second {
        return Other;
    }
    let top = first.close > first.open
        && newest.close < newest.open
        && variance(middle.iter().map(|b| b.high)) < 0.5
        && middle.iter().all(|b| b.low > max(first.open, newest.close));
    let bottom = first.close < first.open
        && newest.close > newest.open
        && variance(middle.iter().map(|b| b.low)) < 0.5
        && middle
            .iter()
            .all(|b| b.high < min(first.open, newest.close));
    if top { Top } else { label_if(bottom, Bottom) }
}

/// The last but one of the bodies of 5 to 9 bars in non-falling order; none if one is NaN.
fn second_body(window: &[Bar]) -> Option<f64> {
    let mut bodies = [0.0; 9];
    let bodies = &mut bodies[..window.len()];
    for (out, bar) in bodies.iter_mut().zip(window) {
        *out = body(bar);
        if out.is_nan() {
            return None;
        }
    }
    bodies.sort_unstable_by(f64::total_cmp);
    Some(bodies[bodies.len() - 2])
}
