//! Minute bars with stamps that a layer takes, and stamps that it refuses.

use crate::told::DAY;
use inputs::hostile;
use inputs::rng::Rng;
use jcc_types::Bar;

/// A bar with its stamp.
pub type Stamped = (u32, Bar);

/// Good hours and a length of terms.
pub struct Clock<'a> {
    pub hours: &'a [u32],
    pub minutes: u32,
}

impl Clock<'_> {
    fn windows(&self) -> &[[u32; 2]] {
        self.hours.as_chunks().0
    }

    /// The first minute within the hours from one on, counted from the fixed midnight.
    pub fn within(&self, from: u64) -> u64 {
        let day = from - from % u64::from(DAY);
        let minute = (from - day) as u32;
        let window = self.windows().iter().find(|[_, to]| minute < *to);
        match window {
            Some([from, _]) => day + u64::from(minute.max(*from)),
            None => day + u64::from(DAY + self.hours[0]),
        }
    }

    /// The first minute outside the hours from one on, if there is one.
    fn outside(&self, from: u64) -> Option<u64> {
        let is_outside = |stamp: &u64| self.within(*stamp) != *stamp;
        (from..=from + u64::from(DAY)).find(is_outside)
    }

    /// The first minute past the term of one within the hours.
    fn term_end(&self, stamp: u64) -> u64 {
        let minute = (stamp % u64::from(DAY)) as u32;
        let [from, _] = self.window(minute);
        let left = self.minutes - (minute - from) % self.minutes;
        self.window_end(stamp).min(stamp + u64::from(left))
    }

    /// The first minute past the window of one within the hours.
    fn window_end(&self, stamp: u64) -> u64 {
        let minute = (stamp % u64::from(DAY)) as u32;
        let [_, to] = self.window(minute);
        stamp + u64::from(to - minute)
    }

    /// The window of a minute of the day within the hours.
    fn window(&self, minute: u32) -> [u32; 2] {
        let window = self.windows().iter().find(|[_, to]| minute < *to);
        *window.expect("it is within the hours")
    }
}

/// The first minute of a history: in the first days, in any day, or so near the end of all stamps
/// that it may reach it.
fn start(rng: &mut Rng) -> u64 {
    let most = u32::MAX as usize;
    let first = match rng.below(8) {
        0 => most - rng.between(0, 3000),
        1..4 => rng.between(0, most - 1_000_000),
        4 => DAY as usize * rng.between(0, 1000),
        _ => rng.between(0, 3000),
    };
    first as u64
}

/// How a history goes from one stamp to the next.
#[derive(Clone, Copy)]
enum Pace {
    /// Every minute of the hours.
    Dense,
    /// Some minutes up to two terms later.
    Sparse,
    /// Mostly the next minute, or a jump to a place where something changes.
    Jumping,
}

/// The bars as minute bars, as far as there are stamps.
pub fn one_each(rng: &mut Rng, clock: &Clock, bars: &[Bar]) -> Vec<Stamped> {
    let pace = rng.pick(&[Pace::Dense, Pace::Sparse, Pace::Jumping, Pace::Jumping]);
    let mut stamped: Vec<Stamped> = Vec::with_capacity(bars.len());
    let mut next = clock.within(start(rng));
    for bar in bars {
        let Ok(stamp) = u32::try_from(next) else {
            break;
        };
        stamped.push((stamp, *bar));
        next = clock.within(next + step(rng, clock, pace, next));
    }
    stamped
}

/// The minutes from a stamp to the next, but for those outside the hours.
fn step(rng: &mut Rng, clock: &Clock, pace: Pace, at: u64) -> u64 {
    let day = u64::from(DAY);
    let to = match pace {
        Pace::Dense => at + 1,
        Pace::Sparse => at + rng.between(1, 2 * clock.minutes as usize) as u64,
        Pace::Jumping => match rng.below(40) {
            0 => clock.term_end(at),
            1 => clock.term_end(at) - 1,
            2 => clock.window_end(at) - 1,
            3 => clock.window_end(at),
            4 => (at / day + 1) * day - 1,
            5 => (at / day + 1) * day,
            6 => at + day,
            7 => at + day * rng.between(1, 30) as u64 - 1,
            8 if rng.one_in(20) => u64::from(u32::MAX) - rng.between(0, 20) as u64,
            9..14 => at + rng.between(1, 2 * clock.minutes as usize) as u64,
            _ => at + 1,
        },
    };
    to.max(at + 1) - at
}

/// Minute bars whose terms have the bars given, each made of one to four minute bars, as far as
/// there are stamps. So the term bars have the patterns of the bars.
pub fn one_term_each(rng: &mut Rng, clock: &Clock, bars: &[Bar]) -> Vec<Stamped> {
    let mut stamped = Vec::new();
    let mut next = clock.within(start(rng));
    for bar in bars {
        let end = clock.term_end(next);
        let Some(minutes) = some_minutes(rng, next, end) else {
            break;
        };
        let parts = split(rng, bar, minutes.len());
        stamped.extend(minutes.into_iter().zip(parts));
        let pause = if rng.one_in(8) {
            rng.between(0, 500)
        } else {
            0
        };
        next = clock.within(end + pause as u64);
    }
    stamped
}

/// One to four minutes between two, the first inclusive, unless they are past all stamps.
fn some_minutes(rng: &mut Rng, from: u64, to: u64) -> Option<Vec<u32>> {
    let last = to.min(u64::from(u32::MAX) + 1) - 1;
    if from > last {
        return None;
    }
    let mut minutes: Vec<u32> = (0..rng.between(1, 4))
        .map(|_| rng.between(from as usize, last as usize) as u32)
        .collect();
    minutes.sort_unstable();
    minutes.dedup();
    Some(minutes)
}

/// Minute bars of which 01's max and min make the bar mostly: each high is the bar's, a lower one, an
/// equal one with the other sign, or NaN.
fn split(rng: &mut Rng, bar: &Bar, count: usize) -> Vec<Bar> {
    let place = rng.below(count);
    let mut parts = Vec::with_capacity(count);
    for i in 0..count {
        let mut other = |price: f64, beyond: f64| match rng.below(5) {
            0 => price,
            1 => f64::NAN,
            2 if price == 0.0 => -price,
            2 => rng.pick(&hostile::PRICES),
            _ => beyond,
        };
        let lower = bar.high - (bar.high - bar.low).abs() / 3.0 - 0.25;
        let higher = bar.low + (bar.high - bar.low).abs() / 3.0 + 0.25;
        let mut part = Bar {
            open: other(bar.open, lower),
            close: other(bar.close, higher),
            high: other(bar.high, lower),
            low: other(bar.low, higher),
        };
        if i == place {
            (part.high, part.low) = (bar.high, bar.low);
        }
        if i == 0 {
            part.open = bar.open;
        }
        if i + 1 == count {
            part.close = bar.close;
        }
        parts.push(part);
    }
    parts
}

/// Makes one stamp of a run wrong, or at least odd. The stamp before the run is given.
pub fn spoil(rng: &mut Rng, clock: &Clock, before: Option<u32>, run: &mut [Stamped]) {
    let at = rng.below(run.len());
    let stamp = u64::from(run[at].0);
    let previous = match at {
        0 => before,
        _ => Some(run[at - 1].0),
    };
    let previous = u64::from(previous.unwrap_or(run[at].0));
    let changed = match rng.below(10) {
        0..2 => Some(previous),
        2 => Some(previous.saturating_sub(rng.between(1, 2000) as u64)),
        3 => Some(0),
        4..6 => clock.outside(stamp),
        6 => Some(clock.window_end(clock.within(previous))),
        7 => clock.outside(previous.saturating_sub(u64::from(DAY))),
        // Seldom, since it may be taken, and then what comes after it is not.
        _ if rng.one_in(20) => Some(u64::from(u32::MAX)),
        _ if rng.one_in(20) => Some(stamp + u64::from(DAY) * rng.between(1, 3) as u64),
        _ => None,
    };
    let changed = changed.and_then(|stamp| u32::try_from(stamp).ok());
    run[at].0 = changed.unwrap_or(previous as u32);
    // Another one may be wrong too.
    let other = rng.below(run.len());
    if other != at && rng.one_in(2) {
        let any = rng.word() as u32;
        run[other].0 = rng.pick(&[0, run[at].0, u32::MAX, any]);
    }
}
