//! What kinds of calls, stamps and terms a list has.

use crate::seen::{Kind, Seen};
use crate::told::{DAY, Taken, Told};
use jcc_types::BAR_PRICES;

/// A close that gets this refusal, or none.
pub fn close(told: &Told, refusal: Option<u32>, seen: &mut Seen) {
    seen.count(Kind::Close);
    match (refusal, told.is_open()) {
        (Some(refusal), is_open) => seen.count_if(refusal == 5 && is_open, Kind::NeverClosed),
        (None, true) => seen.count(Kind::ClosedOpen),
        (None, false) if told.taken.is_empty() => seen.count(Kind::ClosedFirst),
        (None, false) => seen.count(Kind::ClosedAgain),
    }
}

/// A run, whether it is refused or not.
pub fn run(stamps: &[u32], prices: &[f64], seen: &mut Seen) {
    let bars = prices.len() / BAR_PRICES;
    let is_broken = !prices.len().is_multiple_of(BAR_PRICES);
    seen.count(Kind::Run);
    seen.add_bars(bars);
    seen.count_if(is_broken, Kind::BrokenBar);
    let is_alone = bars == stamps.len();
    seen.count_if(is_broken && is_alone, Kind::BrokenAlone);
    seen.count_if(!is_broken && bars < stamps.len(), Kind::MoreStamps);
    seen.count_if(!is_broken && bars > stamps.len(), Kind::FewerStamps);
}

/// A run that only its stamps can be refused for, with the refusals of each by its place.
pub fn stamps(told: &Told, stamps: &[u32], wrong: &[(usize, u32)], seen: &mut Seen) {
    seen.count_if(stamps.is_empty(), Kind::EmptyRun);
    let Some((at, refusal)) = wrong.first().copied() else {
        return;
    };
    let is_first = at == 0;
    seen.count_if(is_first, Kind::WrongFirst);
    seen.count_if(!is_first, Kind::WrongLater);
    seen.count_if(wrong.contains(&(at, 11)) && refusal == 10, Kind::BothAtOnce);
    let has_later = |refusal| wrong.iter().any(|(i, r)| *i > at && *r == refusal);
    seen.count_if(refusal == 10 && has_later(11), Kind::NotAboveFirst);
    seen.count_if(refusal == 11 && has_later(10), Kind::OutsideFirst);
    let before = match at {
        0 => told.taken.last().map(|taken| taken.stamp),
        _ => Some(stamps[at - 1]),
    };
    let is_equal = before == Some(stamps[at]);
    let is_next = before.is_some_and(|before| stamps[at].checked_sub(1) == Some(before));
    seen.count_if(refusal == 10 && is_equal, Kind::EqualStamp);
    seen.count_if(refusal == 11 && is_next, Kind::FirstPastWindow);
}

/// A bar that is taken in after the others.
pub fn taken(told: &Told, taken: &Taken, seen: &mut Seen) {
    seen.count_if(taken.stamp == u32::MAX, Kind::GreatestStamp);
    let Some(last) = told.taken.last() else {
        return;
    };
    let is_after_close = taken.place == last.place && taken.closes != last.closes;
    seen.count_if(is_after_close, Kind::AfterCloseInTerm);
    let [day, before] = [taken.place.day, last.place.day];
    let is_next_minute = taken.stamp == last.stamp + 1;
    let is_other_window = day == before && taken.place.window != last.place.window;
    seen.count_if(is_next_minute && is_other_window, Kind::TouchingWindows);
    seen.count_if(is_next_minute && day != before, Kind::AcrossMidnight);
    seen.count_if(day > before + 1, Kind::DaysLater);
    let [_, to] = told.windows[last.place.window];
    seen.count_if(last.stamp % DAY == to - 1, Kind::LastMinute);
}

/// All term bars that have ended.
pub fn terms(told: &Told, seen: &mut Seen) {
    let mut end = 0;
    for term in told.ended_terms() {
        end += term.len();
        let is_closed = told.closes.binary_search(&end).is_ok();
        seen.count_if(is_closed, Kind::EndedByClose);
        seen.count_if(!is_closed, Kind::EndedByBar);
        let place = term[0].place;
        let [from, to] = told.windows[place.window];
        let is_shorter = from + (place.term + 1) * told.minutes > to;
        seen.count_if(is_shorter, Kind::ShorterTerm);
        seen.count_if(term.len() == told.minutes as usize, Kind::FullTerm);
        seen.count_if(term.len() == 1, Kind::OneBarTerm);
    }
}
