//! Random histories: walks as a market makes them, and bars of small whole numbers with many ties.

use crate::rng::Rng;
use jcc_types::Bar;

/// A random walk of bars.
pub struct Walk {
    price: f64,
    /// How far a bar may move, as a part of the price.
    step: f64,
    /// Prices are multiples of this; 0 for none.
    tick: f64,
    /// Once in how many bars the open leaves the last close.
    jump: usize,
}

impl Walk {
    /// The walk of the benchmark: a price near 100 that moves a percent a bar, in cents.
    pub fn market() -> Walk {
        Walk {
            price: 100.0,
            step: 0.01,
            tick: 0.01,
            jump: 4,
        }
    }

    /// The same with a gap before every bar.
    pub fn gapped() -> Walk {
        Walk {
            jump: 1,
            ..Walk::market()
        }
    }

    pub fn random(rng: &mut Rng) -> Walk {
        Walk {
            price: rng.pick(&[1.0, 10.0, 100.0, 3000.0]),
            step: rng.pick(&[0.002, 0.01, 0.05, 0.2]),
            tick: rng.pick(&[0.0, 0.01, 0.25, 1.0]),
            jump: rng.between(1, 6),
        }
    }

    pub fn bar(&mut self, rng: &mut Rng) -> Bar {
        let reach = self.reach();
        let mut open = self.price;
        if rng.one_in(self.jump) {
            open += rng.real(-reach, reach);
        }
        let close = open + rng.real(-reach, reach);
        let high = open.max(close) + shadow(rng, reach);
        let low = open.min(close) - shadow(rng, reach);
        self.lay([open, close, high, low])
    }

    /// Where the next bar starts from.
    pub fn price(&self) -> f64 {
        self.price
    }

    /// How far it may move.
    pub fn reach(&self) -> f64 {
        self.price * self.step
    }

    /// A bar of these prices, rounded; the walk goes on from it.
    pub fn lay(&mut self, prices: [f64; 4]) -> Bar {
        let bar = Bar::from_prices(prices.map(|price| self.round(price)));
        self.price = self.held(bar.close);
        bar
    }

    fn round(&self, price: f64) -> f64 {
        if self.tick == 0.0 {
            price
        } else {
            (price / self.tick).round() * self.tick
        }
    }

    /// Keeps a long walk from dying out or running away.
    fn held(&self, close: f64) -> f64 {
        if (0.5..20_000.0).contains(&close) {
            close
        } else {
            100.0
        }
    }
}

/// So many bars of the benchmark's walk.
pub fn market(rng: &mut Rng, count: usize) -> Vec<Bar> {
    let mut walk = Walk::market();
    (0..count).map(|_| walk.bar(rng)).collect()
}

/// Shadows are absent as often as they are long.
fn shadow(rng: &mut Rng, reach: f64) -> f64 {
    match rng.below(4) {
        0 => 0.0,
        1 => rng.real(0.0, 0.1 * reach),
        _ => rng.real(0.0, reach),
    }
}

/// Bars of whole numbers from `base` on, `span` of them; with `regular`, high and low enclose open
/// and close.
pub fn small_bar(rng: &mut Rng, base: i32, span: i32, regular: bool) -> Bar {
    let mut prices = [0.0; 4];
    for price in &mut prices {
        *price = rng.whole(base, base + span - 1);
    }
    if regular {
        let [open, close, high, low] = prices;
        prices[2] = high.max(open).max(close);
        prices[3] = low.min(open).min(close);
    }
    Bar::from_prices(prices)
}
