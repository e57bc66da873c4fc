//! What was compared, and whether everything came up that should.

use crate::told::Answer;
use crate::trial::Trial;
use program::add_counts;

/// Names the kinds and their texts in one place.
macro_rules! kinds {
    ($($kind:ident: $text:literal,)*) => {
        /// What should come up.
        #[derive(Clone, Copy)]
        pub enum Kind {
            $($kind,)*
        }

        const TEXTS: &[&str] = &[$($text,)*];
    };
}

kinds! {
    Run: "runs",
    Close: "closes",
    EmptyRun: "accepted runs of no bars",
    ClosedOpen: "closes of an open term bar",
    ClosedFirst: "closes before any bar",
    ClosedAgain: "closes after a close",
    NeverClosed: "closes refused by 5 with an open term bar",
    EndedByBar: "term bars ended by a later bar",
    EndedByClose: "term bars ended by a close",
    ShorterTerm: "term bars of a shorter last term",
    FullTerm: "term bars with a bar for every minute",
    OneBarTerm: "term bars of one bar",
    AfterCloseInTerm: "bars after a close within their own term",
    TouchingWindows: "bars of a touching window in the next minute",
    AcrossMidnight: "bars of the next day in the next minute",
    DaysLater: "bars after a day without one",
    LastMinute: "bars after a window's last minute",
    GreatestStamp: "accepted stamps of 2^32 - 1",
    EqualStamp: "refused stamps equal to the one before",
    FirstPastWindow: "refused stamps in the first minute past a window",
    WrongFirst: "runs refused for their first stamp",
    WrongLater: "runs refused for a later stamp",
    BothAtOnce: "stamps refused by 10 that are outside too",
    NotAboveFirst: "runs with a stamp not above before one outside",
    OutsideFirst: "runs with a stamp outside before one not above",
    MoreStamps: "runs with more stamps than bars",
    FewerStamps: "runs with fewer stamps than bars",
    BrokenBar: "runs with a broken last bar",
    BrokenAlone: "runs with a broken bar past as many stamps as bars",
    AcceptedAfter: "accepted calls after a refused one",
    OneMinuteWindow: "layers with a window of one minute",
    WholeDay: "layers open all day",
    OddHours: "makings with an odd number of hours' numbers",
    FewerAnswers: "lists with fewer places than calls",
    MoreAnswers: "lists with more places than calls",
    BarsLeft: "lists that leave bars",
    OtherNan: "lists with other NaN patterns",
    Recut: "lists cut again",
}

/// Refusals are below this.
const REFUSALS: usize = 13;

/// The refusals that hold at once for one call and must have come up, the earlier first.
const BOTH: [[usize; 2]; 10] = [
    [3, 12],
    [4, 5],
    [4, 6],
    [4, 10],
    [4, 11],
    [5, 6],
    [5, 10],
    [5, 11],
    [6, 10],
    [6, 11],
];

/// The refusals of makings, and of calls.
const OF_MAKINGS: [usize; 2] = [3, 12];
const OF_CALLS: [usize; 5] = [4, 5, 6, 10, 11];

pub struct Seen {
    /// Lists of calls, bars that runs were handed, rows that were compared.
    lists: u64,
    bars: u64,
    rows: u64,
    kinds: Vec<u64>,
    made: [u64; REFUSALS],
    refused: [u64; REFUSALS],
    both: [[u64; REFUSALS]; REFUSALS],
    /// Layers by their number of windows and by the length of a term.
    windows: [u64; 4],
    minutes: [u64; 3],
}

impl Default for Seen {
    fn default() -> Seen {
        Seen {
            lists: 0,
            bars: 0,
            rows: 0,
            kinds: vec![0; TEXTS.len()],
            made: [0; REFUSALS],
            refused: [0; REFUSALS],
            both: [[0; REFUSALS]; REFUSALS],
            windows: [0; 4],
            minutes: [0; 3],
        }
    }
}

impl Seen {
    pub fn count(&mut self, kind: Kind) {
        self.kinds[kind as usize] += 1;
    }

    pub fn count_if(&mut self, holds: bool, kind: Kind) {
        if holds {
            self.count(kind);
        }
    }

    pub fn add_bars(&mut self, bars: usize) {
        self.bars += bars as u64;
    }

    pub fn add_rows(&mut self, rows: usize) {
        self.rows += rows as u64;
    }

    /// Both refusals hold; the first is given.
    pub fn both(&mut self, first: u32, later: u32) {
        self.both[first as usize][later as usize] += 1;
    }

    pub fn answer(&mut self, answer: Answer, before: Option<Answer>) {
        match (answer, before) {
            (Answer::Refused(refusal), _) => self.refused[refusal as usize] += 1,
            (Answer::Rows(_), Some(Answer::Refused(_))) => self.count(Kind::AcceptedAfter),
            (Answer::Rows(_), _) => {}
        }
    }

    /// A list whose layer's making gives this refusal, or 0.
    pub fn making(&mut self, trial: &Trial, refusal: u32) {
        self.lists += 1;
        self.made[refusal as usize] += 1;
        self.count_if(trial.hours.len() % 2 == 1, Kind::OddHours);
        self.count_if(trial.answers < trial.calls.len(), Kind::FewerAnswers);
        self.count_if(trial.answers > trial.calls.len(), Kind::MoreAnswers);
        self.count_if(trial.passed() < trial.stamps.len(), Kind::BarsLeft);
        self.count_if(trial.nan.is_some(), Kind::OtherNan);
        if refusal != 0 {
            return;
        }
        let windows = trial.windows();
        self.windows[windows.len() - 1] += 1;
        let length = [5, 15, 60].iter().position(|m| *m == trial.minutes);
        self.minutes[length.expect("the making is accepted")] += 1;
        let is_short = windows.iter().any(|[from, to]| to - from == 1);
        self.count_if(is_short, Kind::OneMinuteWindow);
        self.count_if(windows == [[0, 1440]], Kind::WholeDay);
    }

    /// An error if something never came up.
    pub fn check(&self) -> Result<(), String> {
        let kinds = TEXTS.iter().map(|text| text.to_string());
        let mut all: Vec<(String, u64)> = kinds.zip(self.kinds.iter().copied()).collect();
        let made = OF_MAKINGS.map(|r| (format!("makings refused by {r}"), self.made[r]));
        let refused = OF_CALLS.map(|r| (format!("calls refused by {r}"), self.refused[r]));
        let both = BOTH.map(|[a, b]| (format!("refused by {a} where {b} holds"), self.both[a][b]));
        all.extend(made.into_iter().chain(refused).chain(both));
        all.extend(
            self.windows
                .map(|n| (String::from("a number of windows"), n)),
        );
        all.extend(self.minutes.map(|n| (String::from("a length of terms"), n)));
        match all.iter().find(|(_, count)| *count == 0) {
            Some((text, _)) => Err(format!("never came up: {text}")),
            None => Ok(()),
        }
    }

    /// The last line, but for the differences.
    pub fn summary(&self) -> String {
        let calls = self.kinds[Kind::Run as usize] + self.kinds[Kind::Close as usize];
        let (lists, bars, rows) = (self.lists, self.bars, self.rows);
        format!("terms: {lists} lists, {calls} calls, {bars} bars, {rows} rows")
    }
}

impl program::Tally for Seen {
    fn add(&mut self, more: &Seen) {
        self.lists += more.lists;
        self.bars += more.bars;
        self.rows += more.rows;
        add_counts(&mut self.kinds, &more.kinds);
        add_counts(&mut self.made, &more.made);
        add_counts(&mut self.refused, &more.refused);
        add_counts(self.both.as_flattened_mut(), more.both.as_flattened());
        add_counts(&mut self.windows, &more.windows);
        add_counts(&mut self.minutes, &more.minutes);
    }

    fn print(&self) {
        println!();
        for (text, count) in TEXTS.iter().zip(&self.kinds) {
            println!("{text:52}{count:>12}");
        }
        println!("layers with 1 to 4 windows: {:?}", self.windows);
        println!("layers with terms of 5, 15 and 60: {:?}", self.minutes);
        for refusal in OF_MAKINGS {
            println!("makings refused by {refusal}: {}", self.made[refusal]);
        }
        for refusal in OF_CALLS {
            println!("calls refused by {refusal}: {}", self.refused[refusal]);
        }
        for [first, later] in BOTH {
            let count = self.both[first][later];
            println!("refused by {first} where {later} holds too: {count}");
        }
    }
}
