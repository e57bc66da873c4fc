//! Inputs whose answers are printed: 01's small histories, its misreadings, 02's tenths, and what was
//! found when the repository was first run beside a model of 01.

use jcc_types::Label::*;
use jcc_types::{Bar, Pair, Thresholds};

/// An input with its answer.
pub struct Known {
    pub name: &'static str,
    pub recogniser: usize,
    pub offset: u32,
    pub thresholds: Thresholds,
    pub bars: Vec<Bar>,
    pub pair: Pair,
    /// What the repository gives where it differs: 01's corners.
    pub repository: Option<Pair>,
}

/// Bars written as open/close/high/low, separated by blanks; `3*` before a bar repeats it.
fn bars(text: &str) -> Vec<Bar> {
    text.split_whitespace().flat_map(repeated).collect()
}

fn repeated(word: &str) -> Vec<Bar> {
    let (count, bar) = match word.split_once('*') {
        Some((count, bar)) => (count.parse().expect("a count"), bar),
        None => (1, word),
    };
    let mut prices = bar.split('/').map(|p| p.parse().expect("a price"));
    let mut price = || prices.next().expect("four prices");
    vec![Bar::new(price(), price(), price(), price()); count]
}

fn known(recogniser: usize, text: &str, pair: Pair) -> Known {
    Known {
        name: "01, small histories",
        recogniser,
        offset: 1,
        thresholds: Thresholds::STANDARD,
        bars: bars(text),
        pair,
        repository: None,
    }
}

fn named(name: &'static str, known: Known) -> Known {
    Known { name, ..known }
}

/// 01's last table.
fn small_histories() -> Vec<Known> {
    vec![
        known(0, "10/11/11/7", Pair(Met, Other)),
        known(0, "10/11/11/8", Pair(Other, Other)),
        known(1, "5/6/7/4 5/6/8/3", Pair(Met, Other)),
        known(7, "5/6/7/4 6/8/9/5", Pair(Met, Other)),
        known(9, "10/20/21/9 14/16/20/11", Pair(Bearish, Any)),
        known(10, "10/12/13/10 11/12/14/10", Pair(Bottom, Any)),
        known(11, "10/14/15/9 18/17/19/16 18/16/19/15", Pair(Bearish, Any)),
        known(
            4,
            "10/14/15/9 3*13/12/16/11 13/18/19/12",
            Pair(RisingThree, K5),
        ),
        known(
            17,
            "10/15/16/9 11/20/21/11 2*12/13/21/11 15/10/16/9",
            Pair(Top, K5),
        ),
        known(12, "20/16/21/15 17/13/18/12 14/10/15/9", Pair(Met, Regular)),
        known(13, "10*10/10/10/10", Pair(Other, Other)),
        known(13, "11*10/10/10/10", Pair(Other, Any)),
    ]
}

/// Where a hasty reader of 01 goes wrong.
fn misreadings() -> Vec<Known> {
    let th = |th0| Thresholds {
        th0,
        ..Thresholds::STANDARD
    };
    let level = Thresholds {
        th6: 0,
        ..Thresholds::STANDARD
    };
    vec![
        Known {
            name: "0.29 × 100 cut is 28",
            thresholds: th(0.29),
            ..known(0, "100/200/200/71.5", Pair(Met, Other))
        },
        Known {
            name: "a threshold of −0.0 is inside its limits",
            thresholds: th(-0.0),
            ..known(0, "100/200/200/99", Pair(Met, Other))
        },
        Known {
            name: "6 with a th of 0: a level newest bar ends no morning star",
            thresholds: level,
            ..known(6, "12/11/13/10 6/4/7/3 8/8/9/7.5", Pair(Other, Any))
        },
        Known {
            name: "6 with a th of 0: a level newest bar ends no evening star",
            thresholds: level,
            ..known(6, "1/2/3/0.5 4/6/7/3.9 3/3/3.5/2", Pair(Other, Any))
        },
        named(
            "a flat bar is no doji",
            known(14, "8*10/10/10/10", Pair(Other, Any)),
        ),
        named(
            "the quarter needs 22 bars",
            known(0, "20*10/10/10/10 10/11/11/7", Pair(Met, Other)),
        ),
        named(
            "22 bars do",
            known(0, "21*10/10/10/10 10/11/11/7", Pair(Met, Hammer)),
        ),
        Known {
            name: "an offset beyond the history",
            offset: u32::MAX,
            ..known(6, "3*10/10/10/10", Pair(Other, Any))
        },
    ]
}

/// 17 asks of every bar between whether it is beyond the bound: NaN is not, though the middle's
/// extreme passes over it.
fn middles() -> Vec<Known> {
    let top = |low: &str| format!("0/5/5/0 4/4/6/{low} 2*4/4/6/3 5/0/5/0");
    let bottom = |high: &str| format!("6/1/6/1 2/2/{high}/0 2*2/2/3/0 1/6/6/1");
    let with_and_without = |name, [nan, number]: [String; 2], label| {
        [
            named(name, known(17, &nan, Pair(Other, Other))),
            named(
                "the same with a number",
                known(17, &number, Pair(label, K5)),
            ),
        ]
    };
    let tops = ["nan", "3"].map(top);
    let bottoms = ["nan", "3"].map(bottom);
    [
        with_and_without("17: a NaN low is not above the bound", tops, Top),
        with_and_without("17: a NaN high is not below the bound", bottoms, Bottom),
    ]
    .into_iter()
    .flatten()
    .collect()
}

/// Doji of 13 and 14 whose range is so many bodies, with a threshold in tenths: 10.5 bodies are more
/// than 100 tenths, 10.6 more than 105 too, and neither is more than 110. At 100 and 110 the
/// repository says so with 10 and 11. The old standard, 10, is one body now.
fn tenths() -> Vec<Known> {
    let tests = [
        (105, "10.5", false),
        (105, "10.6", true),
        (100, "10.5", true),
        (100, "10.6", true),
        (110, "10.5", false),
        (110, "10.6", false),
        (100, "10", false),
        (10, "10", true),
        (10, "1.5", true),
        (10, "1", false),
    ];
    let known = |(th, bodies, is_doji): (u32, &str, bool)| {
        let bar = format!("0/1/{bodies}/0");
        let thresholds = |th13, th14| Thresholds {
            th13,
            th14,
            ..Thresholds::STANDARD
        };
        let [one, three] = if is_doji {
            [GravestoneDoji, Met]
        } else {
            [Other, Other]
        };
        [
            Known {
                name: "13: a threshold in tenths",
                thresholds: thresholds(th, 0),
                ..known(13, &format!("10*1/1/1/1 {bar}"), Pair(one, Any))
            },
            Known {
                name: "14: a threshold in tenths",
                thresholds: thresholds(0, th),
                ..known(14, &format!("5*1/1/1/1 3*{bar}"), Pair(three, Any))
            },
        ]
    };
    tests.into_iter().flat_map(known).collect()
}

/// What was found about the papers.
fn findings() -> Vec<Known> {
    vec![
        named(
            "a doji with a NaN high",
            known(13, "10*1/1/1/1 1/1/nan/1", Pair(GravestoneDoji, Any)),
        ),
        named(
            "12's shape alone",
            known(12, "10/2/2/0 5/1/1/0 1/0/0/0", Pair(Met, Regular)),
        ),
        Known {
            name: "12's gate reads the newest bars",
            offset: 22,
            ..known(
                12,
                "10/2/2/0 5/1/1/0 1/0/0/0 18*0/0/0/0 0/0/3/0 2*0/0/0/0",
                Pair(Other, Other),
            )
        },
        Known {
            name: "corner of 17: a NaN body",
            repository: Some(Pair(Top, K5)),
            ..known(
                17,
                "0/1/1/0 0/0/2/1 nan/0/2/1 0/0/2/1 1/0/1/0",
                Pair(Other, Other),
            )
        },
        Known {
            name: "corner of 15: both extremes zero",
            repository: Some(Pair(Met, Any)),
            ..known(
                15,
                "0/0/0/0 0/0/-1/0 0/0/-0/0 16*0/0/0/0 0/-1/0/0 0/-1/0/0",
                Pair(Other, Any),
            )
        },
    ]
}

pub fn all() -> Vec<Known> {
    [
        small_histories(),
        misreadings(),
        tenths(),
        middles(),
        findings(),
    ]
    .into_iter()
    .flatten()
    .collect()
}
