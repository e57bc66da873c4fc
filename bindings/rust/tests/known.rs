//! The scope's small histories through the library.

use sodsundial_jcc::{label, label_bytes, Bar, Label, Recogniser, Thresholds};

/// Recogniser, bars as open/close/high/low (`3*` repeats a bar), pair.
const ROWS: [(u32, &str, &str); 12] = [
    (0, "10/11/11/7", "满足/其他"),
    (0, "10/11/11/8", "其他/其他"),
    (1, "5/6/7/4 5/6/8/3", "满足/其他"),
    (7, "5/6/7/4 6/8/9/5", "满足/其他"),
    (9, "10/20/21/9 14/16/20/11", "看空/任意"),
    (10, "10/12/13/10 11/12/14/10", "底部/任意"),
    (11, "10/14/15/9 18/17/19/16 18/16/19/15", "看空/任意"),
    (4, "10/14/15/9 3*13/12/16/11 13/18/19/12", "上升三法/5K"),
    (
        17,
        "10/15/16/9 11/20/21/11 2*12/13/21/11 15/10/16/9",
        "顶部/5K",
    ),
    (12, "20/16/21/15 17/13/18/12 14/10/15/9", "满足/常规"),
    (13, "10*10/10/10/10", "其他/其他"),
    (13, "11*10/10/10/10", "其他/任意"),
];

fn bars(text: &str) -> Vec<Bar> {
    text.split(' ').flat_map(repeated).collect()
}

fn repeated(word: &str) -> Vec<Bar> {
    let (count, bar) = match word.split_once('*') {
        Some((count, bar)) => (count.parse().expect("a count"), bar),
        None => (1, word),
    };
    let mut prices = bar.split('/').map(|price| price.parse().expect("a price"));
    let mut next = || prices.next().expect("four prices");
    vec![Bar::new(next(), next(), next(), next()); count]
}

#[test]
fn small_histories() {
    for (number, text, expected) in ROWS {
        let recogniser = Recogniser::from_number(number).expect("a recogniser");
        let history = bars(text);
        let pair = label(recogniser, 1, &Thresholds::STANDARD, &history).expect("a pair");
        assert_eq!(pair.to_string(), expected, "{recogniser}: {text}");
    }
}

/// Bytes at any place in memory stand for the same bars.
#[test]
fn the_same_through_bytes() {
    for (number, text, expected) in ROWS {
        for shift in 0..8 {
            let mut bytes = vec![0xFF; shift];
            bytes.extend(bars(text).into_iter().flat_map(Bar::to_bytes));
            let pair = label_bytes(number, 1, &Thresholds::default(), &bytes[shift..]);
            assert_eq!(pair.expect("a pair").to_string(), expected);
        }
    }
}

/// A row's answer holds at the offset that names its newest bar when other bars follow.
#[test]
fn offsets() {
    for (number, text, expected) in ROWS {
        let recogniser = Recogniser::from_number(number).expect("a recogniser");
        let mut history = bars(text);
        for offset in 1..=5 {
            let pair = label(recogniser, offset, &Thresholds::STANDARD, &history);
            assert_eq!(pair.expect("a pair").to_string(), expected);
            history.push(Bar::new(1.0, 2.0, 3.0, 0.5));
        }
    }
}

/// The scope's short pairs, by recogniser: what is given where there is no judged bar.
const SHORT: [&str; 18] = {
    const A: &str = "其他/其他";
    const B: &str = "其他/任意";
    [A, A, B, B, A, A, B, A, A, B, B, B, A, A, B, B, B, A]
};

#[test]
fn beyond_the_history() {
    let one = [Bar::new(10.0, 11.0, 11.0, 7.0)];
    for (recogniser, short) in Recogniser::ALL.into_iter().zip(SHORT) {
        for offset in [2, 3, 1_000_000, 1_000_001, 1 << 31, u32::MAX] {
            let pair = label(recogniser, offset, &Thresholds::STANDARD, &one);
            assert_eq!(pair.expect("a pair").to_string(), short);
        }
        for offset in [1, u32::MAX] {
            let pair = label(recogniser, offset, &Thresholds::STANDARD, &[]);
            assert_eq!(pair.expect("a pair").to_string(), short);
        }
    }
}

/// Bars of NaN, infinities and zeros of both signs get an answer from every recogniser.
#[test]
fn any_price() {
    let prices = [
        f64::NAN,
        -f64::NAN,
        f64::INFINITY,
        f64::NEG_INFINITY,
        0.0,
        -0.0,
        f64::MAX,
    ];
    for price in prices {
        let history = vec![Bar::new(price, price, price, price); 30];
        for recogniser in Recogniser::ALL {
            for offset in [1, 8, 30, 31] {
                let pair = label(recogniser, offset, &Thresholds::STANDARD, &history);
                assert!(pair.is_ok(), "{recogniser} at {offset}, {price}");
            }
        }
    }
}

#[test]
fn nan_prices() {
    // A doji with a NaN high.
    let mut history = vec![Bar::new(1.0, 1.0, 1.0, 1.0); 10];
    history.push(Bar::new(1.0, 1.0, f64::NAN, 1.0));
    let pair = label(Recogniser::Szx, 1, &Thresholds::STANDARD, &history).expect("a pair");
    assert_eq!(pair.to_string(), "墓碑十字线/任意");

    // A window of ta_xing with a NaN body never matches.
    let tower = bars("0/1/1/0 0/0/2/1 nan/0/2/1 0/0/2/1 1/0/1/0");
    let pair = label(Recogniser::TaXing, 1, &Thresholds::STANDARD, &tower).expect("a pair");
    assert_eq!(pair.to_string(), "其他/其他");
}

/// 0.29 × 100 is below 29, so that t is 28.
#[test]
fn a_threshold_that_is_cut() {
    let thresholds = Thresholds {
        th0: 0.29,
        ..Thresholds::STANDARD
    };
    let history = [Bar::new(100.0, 200.0, 200.0, 71.5)];
    let pair = label(Recogniser::SanXingXian, 1, &thresholds, &history).expect("a pair");
    assert_eq!(pair.to_string(), "满足/其他");
}

/// Whether `szx` with a `th13` names a bar whose height is so many times its body, after ten flat
/// ones.
fn is_doji(th13: u32, height: f64) -> bool {
    let thresholds = Thresholds {
        th13,
        ..Thresholds::STANDARD
    };
    let mut history = vec![Bar::new(1.0, 1.0, 1.0, 1.0); 10];
    history.push(Bar::new(0.0, 1.0, height, 0.0));
    let pair = label(Recogniser::Szx, 1, &thresholds, &history);
    pair.expect("a pair").v1 != Label::Other
}

/// Ten is too coarse and eleven too strict: `th13` and `th14` count tenths.
#[test]
fn tenths_of_a_doji() {
    let most = Thresholds::MOST_TENTHS;
    for (th13, height, expected) in [
        (100, 10.0, false),
        (100, 10.0_f64 + 2e-15, true),
        (105, 10.4, false),
        (105, 10.5, false),
        (105, 10.6, true),
        (110, 10.6, false),
        // 10, as it was passed before, is now one.
        (10, 1.0, false),
        (10, 1.5, true),
        (1, 0.1, false),
        (1, 0.2, true),
        (most, 1e6, false),
        (most - 1, 1e6, true),
    ] {
        assert_eq!(is_doji(th13, height), expected, "{height} at {th13}");
    }
}
