//! The opening hours, and where a stamp's term ends.

/// The minutes of a day.
pub const DAY: u32 = 1440;

/// The most windows of a day.
const MOST: usize = 4;

/// Minutes of the day, from inclusive, to exclusive.
#[derive(Clone, Copy, Debug, Default)]
pub struct Window {
    pub from: u32,
    pub to: u32,
}

/// One to four windows, rising and disjoint.
#[derive(Clone, Copy, Debug)]
pub struct Hours {
    windows: [Window; MOST],
    count: usize,
}

impl Hours {
    /// Of two numbers to a window; a missing last one is 0. None if they break the rules.
    pub fn of_numbers(numbers: &[u32]) -> Option<Hours> {
        let mut hours = Hours {
            windows: [Window::default(); MOST],
            count: numbers.len().div_ceil(2),
        };
        if hours.count == 0 || hours.count > MOST {
            return None;
        }
        let mut closed = 0;
        for (window, pair) in hours.windows.iter_mut().zip(numbers.chunks(2)) {
            let (from, to) = (pair[0], pair.get(1).copied().unwrap_or(0));
            if from < closed || from >= to || to > DAY {
                return None;
            }
            *window = Window { from, to };
            closed = to;
        }
        Some(hours)
    }

    /// The first minute past the term of a stamp; none if the stamp is outside all windows. It is
    /// counted from the same midnight and may be beyond 32 bits.
    pub fn term_end(&self, stamp: u32, minutes: u32) -> Option<u64> {
        let minute = stamp % DAY;
        let windows = &self.windows[..self.count];
        let window = windows.iter().find(|w| minute < w.to)?;
        let since = minute.checked_sub(window.from)?;
        let end = window.from + (since / minutes + 1) * minutes;
        let midnight = stamp - minute;
        Some(u64::from(midnight) + u64::from(end.min(window.to)))
    }
}
