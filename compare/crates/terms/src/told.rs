//! What a list of calls must give: the whole list of accepted bars and closes, and not what a layer
//! keeps, tells the rows of each call and the ended term bars.

use crate::trial::Trial;
use jcc_types::{BAR_PRICES, Bar};

/// The minutes of a day.
pub const DAY: u32 = 1440;

/// A refused call's answer is this and the refusal's number.
const REFUSED: u32 = 16_777_216;

/// Where a stamp is.
#[derive(Clone, Copy, PartialEq, Eq)]
pub struct Place {
    pub day: u32,
    pub window: usize,
    /// The term's number in its window.
    pub term: u32,
}

/// A bar of an accepted run.
#[derive(Clone, Copy)]
pub struct Taken {
    pub stamp: u32,
    pub bar: Bar,
    pub place: Place,
    /// The closes that were accepted before it.
    pub closes: usize,
}

impl Taken {
    /// Whether two bars, one after the other, are of one term bar.
    fn is_with(&self, other: &Taken) -> bool {
        self.place == other.place && self.closes == other.closes
    }
}

#[derive(Clone, Copy, Debug, PartialEq, Eq)]
pub enum Answer {
    Rows(usize),
    Refused(u32),
}

impl Answer {
    /// The export's form.
    pub fn number(self) -> u32 {
        match self {
            Answer::Rows(rows) => rows as u32,
            Answer::Refused(refusal) => REFUSED + refusal,
        }
    }
}

pub struct Told {
    pub windows: Vec<[u32; 2]>,
    pub minutes: u32,
    /// The refusal of the making, or 0.
    pub made: u32,
    /// Of each call.
    pub answers: Vec<Answer>,
    /// All bars of accepted runs.
    pub taken: Vec<Taken>,
    /// For each accepted close, how many bars were taken before it.
    pub closes: Vec<usize>,
    /// The term bars that the taken ones begin.
    begun: usize,
}

impl Told {
    /// Before any call to a layer whose making gets this refusal, or 0.
    pub fn new(trial: &Trial, made: u32) -> Told {
        Told {
            windows: trial.windows(),
            minutes: trial.minutes,
            made,
            answers: Vec::new(),
            taken: Vec::new(),
            closes: Vec::new(),
            begun: 0,
        }
    }

    /// The term bars that have ended: all, but for the last if no close came after its last bar.
    pub fn ended(&self) -> usize {
        self.begun - usize::from(self.is_open())
    }

    pub fn is_open(&self) -> bool {
        self.taken.len() > self.closes.last().copied().unwrap_or(0)
    }

    pub fn place(&self, stamp: u32) -> Option<Place> {
        let minute = stamp % DAY;
        let is_within = |[from, to]: &[u32; 2]| (*from..*to).contains(&minute);
        let window = self.windows.iter().position(is_within)?;
        Some(Place {
            day: stamp / DAY,
            window,
            term: (minute - self.windows[window][0]) / self.minutes,
        })
    }

    /// The next bar of an accepted run.
    pub fn next(&self, stamp: u32, prices: [f64; BAR_PRICES]) -> Taken {
        Taken {
            stamp,
            bar: Bar::from_prices(prices),
            place: self.place(stamp).expect("it is within the hours"),
            closes: self.closes.len(),
        }
    }

    pub fn take(&mut self, next: Taken) {
        let last = self.taken.last();
        self.begun += usize::from(last.is_none_or(|last| !last.is_with(&next)));
        self.taken.push(next);
    }

    pub fn close(&mut self) {
        self.closes.push(self.taken.len());
    }

    /// The minute bars of each term bar that has ended.
    pub fn ended_terms(&self) -> impl Iterator<Item = &[Taken]> {
        let terms = self.taken.chunk_by(Taken::is_with);
        terms.take(self.ended())
    }
}

/// A term's bar: the first open, the last close, and highest and lowest by 01's max and min.
pub fn term_bar(term: &[Taken]) -> Bar {
    let highs = term.iter().map(|taken| taken.bar.high);
    let lows = term.iter().map(|taken| taken.bar.low);
    Bar {
        open: term[0].bar.open,
        close: term[term.len() - 1].bar.close,
        high: highs.reduce(max).expect("a term has a bar"),
        low: lows.reduce(min).expect("a term has a bar"),
    }
}

fn max(a: f64, b: f64) -> f64 {
    match (a.is_nan(), b.is_nan()) {
        (true, false) => b,
        (_, true) => a,
        (false, false) if b > a => b,
        (false, false) => a,
    }
}

fn min(a: f64, b: f64) -> f64 {
    match (a.is_nan(), b.is_nan()) {
        (true, false) => b,
        (_, true) => a,
        (false, false) if b < a => b,
        (false, false) => a,
    }
}
