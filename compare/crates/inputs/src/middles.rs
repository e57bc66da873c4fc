//! Windows of 4 and 17 with NaN, zeros of both signs and infinities in their middles, the bars between
//! the first and the last, and in the bounds that a middle is held to.
//!
//! As planted, each window gets the label of its size. It is moved so that each of its prices in turn
//! is zero: there a zero of either sign in another place is a tie.

mod changes;

use crate::Case;
use crate::hostile::price_at;
use crate::known::Known;
use crate::planted::{at, mirror};
use crate::rng::Rng;
use changes::{CLOSE, Change, INF, NAN, OPEN, last};
use jcc_types::Label::{self, *};
use jcc_types::{Bar, Pair, Thresholds};

/// The recognisers that try growing windows.
pub const RECOGNISERS: [usize; 2] = [4, 17];

/// The least size of a window that is tried, and the labels from it on.
const LEAST: usize = 5;
const SIZES: [Label; 5] = [K5, K6, K7, K8, K9];

/// Bases far from zero, beside those at which a price is zero.
const FAR: [f64; 2] = [100.0, -100.0];

/// The most bars before a window.
const MOST_OLDER: usize = 21;

#[derive(Clone, Copy)]
enum Shape {
    Rising,
    Falling,
    Top,
    Bottom,
}

impl Shape {
    const ALL: [Shape; 4] = [Shape::Rising, Shape::Falling, Shape::Top, Shape::Bottom];

    fn recogniser(self) -> usize {
        match self {
            Shape::Rising | Shape::Falling => 4,
            Shape::Top | Shape::Bottom => 17,
        }
    }

    fn label(self) -> Label {
        match self {
            Shape::Rising => RisingThree,
            Shape::Falling => FallingThree,
            Shape::Top => Top,
            Shape::Bottom => Bottom,
        }
    }

    /// The greatest size that is tried.
    fn most(self) -> usize {
        match self {
            Shape::Rising | Shape::Falling => 8,
            Shape::Top | Shape::Bottom => 9,
        }
    }

    /// Whether it is one of the others upside down.
    fn is_mirrored(self) -> bool {
        matches!(self, Shape::Falling | Shape::Bottom)
    }
}

/// How the bars of a middle are made. A bar's age is 1 for the newest.
#[derive(Clone, Copy)]
enum Middle {
    Alike,
    /// The bar of this age alone has the extreme: for 4 a high beyond the first bar's, for 17 the
    /// low next to the bound; upside down the other way round.
    Lone(usize),
    /// Each bar can be the first of a window too, so that all sizes match.
    Nested,
}

#[derive(Clone, Copy)]
pub struct Window {
    shape: Shape,
    /// How many bars it has; sizes that are not tried are among them.
    size: usize,
    middle: Middle,
    base: f64,
    /// The sign of its zeros.
    zero: f64,
    /// How many bars come before it.
    older: usize,
}

/// All windows, each without bars before it and with some.
pub fn windows() -> Vec<Window> {
    let mut windows = Vec::new();
    for (i, alone) in placed_windows().into_iter().enumerate() {
        windows.push(alone);
        // Behind other bars one that is too short is another window.
        if alone.size >= LEAST {
            let older = 1 + i % MOST_OLDER;
            windows.push(Window { older, ..alone });
        }
    }
    windows
}

/// The windows at all bases, without bars before them.
fn placed_windows() -> Vec<Window> {
    let mut windows = Vec::new();
    for shape in Shape::ALL {
        for size in LEAST - 2..=shape.most() + 1 {
            for middle in middles(size) {
                windows.extend(Window::around_zero(shape, size, middle).placed());
            }
        }
    }
    windows
}

fn middles(size: usize) -> Vec<Middle> {
    let mut middles = vec![Middle::Alike];
    middles.extend((2..size).map(Middle::Lone));
    if size > LEAST {
        middles.push(Middle::Nested);
    }
    middles
}

/// One of the windows with one of its changes: a piece of a longer history.
pub fn changed(rng: &mut Rng, case: &mut Case) {
    let shape = rng.pick(&Shape::ALL);
    let size = rng.between(LEAST, shape.most());
    let middle = rng.pick(&middles(size));
    let window = rng.pick(&Window::around_zero(shape, size, middle).placed());
    let changes = window.changes();
    let change = &changes[rng.below(changes.len())];
    case.bars.extend(window.with(change));
    case.offsets.push(1);
}

/// The windows of the list of answers: one for each label, with its middle's bound at zero.
pub fn listed() -> Vec<Window> {
    let mut windows = Vec::new();
    for shape in Shape::ALL {
        for size in LEAST..=shape.most() {
            let window = Window::around_zero(shape, size, Middle::Alike);
            let base = -window.bound();
            windows.push(Window { base, ..window });
        }
    }
    windows
}

impl Window {
    fn around_zero(shape: Shape, size: usize, middle: Middle) -> Window {
        Window {
            shape,
            size,
            middle,
            base: 0.0,
            zero: 0.0,
            older: 0,
        }
    }

    /// This window, which is around zero, where each of its prices is a zero of either sign, and far
    /// above and below.
    fn placed(self) -> Vec<Window> {
        let bars = self.bars();
        let mut levels: Vec<f64> = bars.iter().flat_map(Bar::prices).collect();
        levels.sort_by(f64::total_cmp);
        levels.dedup();
        let at = |base, zero| Window { base, zero, ..self };
        let ties = levels
            .iter()
            .flat_map(|level| [0.0, -0.0].map(|zero| at(-level, zero)));
        ties.chain(FAR.map(|base| at(base, 0.0))).collect()
    }

    pub fn recogniser(&self) -> usize {
        self.shape.recogniser()
    }

    /// The window as planted, with its answer.
    pub fn known(&self) -> Known {
        Known {
            name: "a window as planted",
            recogniser: self.recogniser(),
            offset: 1,
            thresholds: Thresholds::STANDARD,
            bars: self.bars(),
            pair: self.pair(),
            repository: None,
        }
    }

    fn pair(&self) -> Pair {
        match self.middle {
            Middle::Nested => Pair(self.shape.label(), K5),
            _ if self.is_tried() => Pair(self.shape.label(), SIZES[self.size - LEAST]),
            _ => Pair(Other, Other),
        }
    }

    /// Whether its size is among those that its recogniser tries.
    fn is_tried(&self) -> bool {
        (LEAST..=self.shape.most()).contains(&self.size)
    }

    /// The window with the bars before it.
    fn bars(&self) -> Vec<Bar> {
        let mut bars = self.older_bars();
        bars.extend((1..=self.size).rev().map(|age| self.bar(age)));
        if self.shape.is_mirrored() {
            mirror(&mut bars, self.base);
        }
        for bar in &mut bars {
            let signed = |price: f64| if price == 0.0 { self.zero } else { price };
            *bar = Bar::from_prices(bar.prices().map(signed));
        }
        bars
    }

    /// Wild bars and one that can be a larger window's first. Their bodies are numbers: a NaN body
    /// would put 17 in its corner.
    fn older_bars(&self) -> Vec<Bar> {
        let kinds = [
            at(self.base, 1.0, 2.0, 3.0, 0.0),
            at(self.base, 2.0, 1.0, INF, -INF),
            at(self.base, 1.0, 2.0, NAN, NAN),
            at(self.base, 2.0, 1.0, -INF, INF),
            at(self.base, -30.0, 30.0, 14.0, -31.0),
        ];
        kinds.into_iter().cycle().take(self.older).collect()
    }

    /// A bar of the window before it is turned upside down.
    fn bar(&self, age: usize) -> Bar {
        match self.shape {
            Shape::Rising | Shape::Falling => self.method_bar(age),
            Shape::Top | Shape::Bottom => self.tower_bar(age),
        }
    }

    fn method_bar(&self, age: usize) -> Bar {
        let reach = age as f64;
        if age == 1 {
            at(self.base, 3.0, 21.0, 22.0, 2.0)
        } else if self.can_be_first(age) {
            at(self.base, -reach, reach, 15.0, -reach - 0.5)
        } else {
            let high = if self.has_extreme(age) { 20.0 } else { 12.0 };
            at(self.base, 3.0, 2.0, high, -2.5)
        }
    }

    /// The last bar's close is the bound, but for nested windows the first one's open.
    fn tower_bar(&self, age: usize) -> Bar {
        let reach = age as f64;
        if age == 1 {
            match self.middle {
                Middle::Nested => at(self.base, 1.0, -11.0, 10.0, -12.0),
                _ => at(self.base, 5.0, -4.5, 10.0, -12.0),
            }
        } else if self.can_be_first(age) {
            at(self.base, -reach, 0.0, 10.0, -reach - 0.25)
        } else {
            let low = if self.has_extreme(age) { -2.5 } else { -1.5 };
            at(self.base, 0.0, -1.0, 10.0, low)
        }
    }

    fn can_be_first(&self, age: usize) -> bool {
        let nested = matches!(self.middle, Middle::Nested);
        age == self.size || (nested && age >= LEAST)
    }

    fn has_extreme(&self, age: usize) -> bool {
        match self.middle {
            Middle::Lone(lone) => lone == age,
            _ => true,
        }
    }

    /// The bound of the middle's lows, or of its highs if it is upside down.
    fn bound(&self) -> f64 {
        let place = match self.shape {
            Shape::Rising | Shape::Falling => OPEN,
            Shape::Top | Shape::Bottom => last(self.size, CLOSE),
        };
        *price_at(&mut self.bars(), place)
    }

    /// How many histories there are of the window.
    pub fn histories(&self) -> usize {
        self.changes().len()
    }

    /// The window with each of its changes.
    pub fn cases(&self) -> impl Iterator<Item = Case> {
        self.changed(self.changes())
    }

    /// As many of them as the list of answers has.
    pub fn listed_cases(&self) -> impl Iterator<Item = Case> {
        self.changed(changes::listed(self.size, self.recogniser()))
    }

    fn changes(&self) -> Vec<Change> {
        let mut changes = changes::few(self.size);
        if matches!(self.middle, Middle::Alike) && self.is_tried() {
            changes.extend(changes::many(self.size));
        }
        changes
    }

    fn changed(&self, changes: Vec<Change>) -> impl Iterator<Item = Case> {
        changes.into_iter().map(|change| Case {
            bars: self.with(&change),
            ..Case::new()
        })
    }

    /// Its bars, and those before it, with a change.
    fn with(&self, change: &[(usize, f64)]) -> Vec<Bar> {
        let mut bars = self.bars();
        for (place, price) in change {
            *price_at(&mut bars, 4 * self.older + place) = *price;
        }
        bars
    }
}
