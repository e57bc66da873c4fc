//! Short histories exhaustively: every choice of a few prices for the newest bars.

use crate::Case;
use crate::rng::Rng;
use crate::walk::small_bar;
use jcc_types::{Bar, LEAST_P, RECOGNISERS};

/// All histories of `count` bars over some prices, after a fixed number of older bars.
pub struct Grid {
    pub name: &'static str,
    older: Older,
    count: usize,
    prices: &'static [f64],
    /// The recognisers to try; empty for all that don't give their short pair.
    only: &'static [usize],
}

/// The bars before the enumerated ones.
#[derive(Clone, Copy)]
enum Older {
    None,
    /// This many flat bars at 1.
    Flat(usize),
    /// This many bars of small whole numbers, always the same.
    Mixed(usize),
}

const NAN: f64 = f64::NAN;
const INF: f64 = f64::INFINITY;

pub const GRIDS: [Grid; 14] = [
    Grid {
        name: "1 bar over 8 prices",
        older: Older::None,
        count: 1,
        prices: &[NAN, -INF, -1.0, -0.0, 0.0, 1.0, 2.0, INF],
        only: &ALL,
    },
    Grid {
        name: "1 bar over 9 whole prices",
        older: Older::None,
        count: 1,
        prices: &[1.0, 2.0, 3.0, 4.0, 5.0, 6.0, 7.0, 8.0, 100.0],
        only: &ALL,
    },
    Grid {
        name: "2 bars over 5 prices",
        older: Older::None,
        count: 2,
        prices: &[NAN, 0.0, 1.0, 2.0, 3.0],
        only: &[],
    },
    Grid {
        name: "2 bars over 4 prices and zeros",
        older: Older::None,
        count: 2,
        prices: &[-1.0, -0.0, 0.0, 1.0],
        only: &ALL,
    },
    Grid {
        name: "3 bars over 1, 2, NaN",
        older: Older::None,
        count: 3,
        prices: &[1.0, 2.0, NAN],
        only: &[],
    },
    Grid {
        name: "3 bars over 1, 2, 3",
        older: Older::None,
        count: 3,
        prices: &[1.0, 2.0, 3.0],
        only: &[],
    },
    Grid {
        name: "3 bars over -1, -0, 1",
        older: Older::None,
        count: 3,
        prices: &[-1.0, -0.0, 1.0],
        only: &[],
    },
    Grid {
        name: "5 bars over 1, 2",
        older: Older::None,
        count: 5,
        prices: &[1.0, 2.0],
        only: &[4, 17],
    },
    Grid {
        name: "20 flat bars, then 1 over 8 prices",
        older: Older::Flat(20),
        count: 1,
        prices: &[NAN, -INF, -1.0, -0.0, 0.0, 1.0, 2.0, INF],
        only: &[],
    },
    Grid {
        name: "20 flat bars, then 2 over 0, 1, 2, 3",
        older: Older::Flat(20),
        count: 2,
        prices: &[0.0, 1.0, 2.0, 3.0],
        only: &[],
    },
    Grid {
        name: "19 flat bars, then 2 over NaN, 1, 2, 3",
        older: Older::Flat(19),
        count: 2,
        prices: &[NAN, 1.0, 2.0, 3.0],
        only: &[],
    },
    Grid {
        name: "22 mixed bars, then 2 over 1, 3, 5, 9",
        older: Older::Mixed(22),
        count: 2,
        prices: &[1.0, 3.0, 5.0, 9.0],
        only: &[],
    },
    Grid {
        name: "14 flat bars, then 2 over -1, 0, 1, 100",
        older: Older::Flat(14),
        count: 2,
        prices: &[-1.0, 0.0, 1.0, 100.0],
        only: &[],
    },
    Grid {
        name: "21 flat bars, then 3 over 1, 2",
        older: Older::Flat(21),
        count: 3,
        prices: &[1.0, 2.0],
        only: &[],
    },
];

const ALL: [usize; RECOGNISERS] = [0, 1, 2, 3, 4, 5, 6, 7, 8, 9, 10, 11, 12, 13, 14, 15, 16, 17];

impl Grid {
    /// How many histories there are.
    pub fn size(&self) -> usize {
        self.prices.len().pow(4 * self.count as u32)
    }

    pub fn recognisers(&self) -> Vec<usize> {
        if self.only.is_empty() {
            let len = self.older().len() + self.count;
            ALL.into_iter().filter(|k| LEAST_P[*k] <= len).collect()
        } else {
            self.only.to_vec()
        }
    }

    pub fn older(&self) -> Vec<Bar> {
        match self.older {
            Older::None => Vec::new(),
            Older::Flat(count) => vec![Bar::from_prices([1.0; 4]); count],
            Older::Mixed(count) => {
                let mut rng = Rng::stream(0, 0, 0);
                let bar = |_| small_bar(&mut rng, 1, 8, true);
                (0..count).map(bar).collect()
            }
        }
    }

    /// Lays the bars of one history, given by its number, over the newest of a case.
    pub fn lay(&self, mut number: usize, case: &mut Case) {
        let older = case.bars.len() - self.count;
        for bar in &mut case.bars[older..] {
            let mut digit = || {
                let price = self.prices[number % self.prices.len()];
                number /= self.prices.len();
                price
            };
            *bar = Bar::from_prices([digit(), digit(), digit(), digit()]);
        }
    }

    /// A case with the older bars and room for the enumerated ones.
    pub fn case(&self) -> Case {
        let mut case = Case::new();
        case.bars = self.older();
        let room = case.bars.len() + self.count;
        case.bars.resize(room, Bar::from_prices([0.0; 4]));
        case
    }
}
