//! Whether the export and the plain layer give what a list of calls must give.

use crate::calls;
use crate::noted;
use crate::recut;
use crate::seen::{Kind, Seen};
use crate::told::{Answer, Told, term_bar};
use crate::trial::Trial;
use inputs::rng::Rng;
use jcc_types::{BAR_PRICES, NAMES, ROW_BYTES};
use lent::Lent;
use program::Difference;
use std::time::{Duration, Instant};

/// A difference in a trial with more bars than this is not made simpler.
const MOST_SIMPLIFIED: usize = 10_000;

/// How long simpler trials are looked for.
const LONGEST: Duration = Duration::from_secs(30);

pub struct Judge {
    pub seen: Seen,
}

/// What a list of calls gave, when all agree.
pub struct Agreed {
    pub told: Told,
    /// The rows of all calls.
    pub rows: Vec<u8>,
}

impl Judge {
    pub fn new() -> Judge {
        Judge {
            seen: Seen::default(),
        }
    }

    /// A list of calls, then what it accepted in other cuts.
    pub fn try_list(&mut self, trial: Trial, rng: &mut Rng) -> Result<(), Difference> {
        let (Agreed { told, rows }, trial) = self.try_alone(trial)?;
        if told.made != 0 {
            return Ok(());
        }
        for cut in recut::CUTS {
            let again = recut::again(rng, &trial, &told, cut);
            self.seen.count(Kind::Recut);
            let (recut, again) = self.try_alone(again)?;
            let refused = |answer: &Answer| matches!(answer, Answer::Refused(_));
            if recut.told.answers.iter().any(refused) || recut.rows != rows {
                let text = "the accepted bars and closes in other cuts give other rows";
                return Err(Difference(format!("{text}\n{again}\nfirst:\n{trial}")));
            }
        }
        Ok(())
    }

    /// A list of calls; the error is as simple as it can be made.
    pub fn try_alone(&mut self, trial: Trial) -> Result<(Agreed, Trial), Difference> {
        match self.check(&trial) {
            Ok(agreed) => Ok((agreed, trial)),
            Err(wrong) => Err(self.simplest(trial, wrong)),
        }
    }

    fn simplest(&mut self, trial: Trial, wrong: String) -> Difference {
        let start = Instant::now();
        let mut found = (trial, wrong);
        while found.0.stamps.len() <= MOST_SIMPLIFIED
            && let Some(simpler) = self.simpler(&found.0, start)
        {
            found = simpler;
        }
        let (trial, wrong) = found;
        Difference(format!("{wrong}\n{trial}"))
    }

    /// A simpler trial that is wrong, if one is found in time.
    fn simpler(&mut self, trial: &Trial, start: Instant) -> Option<(Trial, String)> {
        let mut wrong = |trial: Trial| self.check(&trial).err().map(|wrong| (trial, wrong));
        let mut in_time = trial.simpler().take_while(|_| start.elapsed() < LONGEST);
        in_time.find_map(&mut wrong)
    }

    fn check(&mut self, trial: &Trial) -> Result<Agreed, String> {
        let told = calls::tell(trial, &mut self.seen);
        noted::terms(&told, &mut self.seen);
        let rows = one_feed(trial, &told)?;
        let agreed = Agreed { told, rows };
        let list = trial.list();
        check_one(trial, &agreed, |sheet, answers| list.make(sheet, answers))
            .map_err(|wrong| format!("plain layer, {wrong}"))?;
        check_one(trial, &agreed, |sheet, answers| {
            export(trial, sheet, answers)
        })
        .map_err(|wrong| format!("jcc_terms, {wrong}"))?;
        self.seen.add_rows(agreed.told.ended());
        Ok(agreed)
    }
}

fn export(trial: &Trial, sheet: &mut [u8], answers: &mut [u32]) -> u32 {
    exports::terms(
        &trial.thresholds,
        trial.minutes,
        &trial.hours,
        &trial.stamps,
        &trial.handed_prices(),
        &trial.calls,
        sheet,
        answers,
    )
}

/// The rows of one feed of the ended term bars to a fresh box, by the plain box and by `jcc_feed`.
fn one_feed(trial: &Trial, told: &Told) -> Result<Vec<u8>, String> {
    let bars = told.ended_terms().map(term_bar);
    let prices: Vec<f64> = bars.flat_map(|bar| bar.prices()).collect();
    let mut rows = vec![0; prices.len() / BAR_PRICES * ROW_BYTES];
    if told.made != 0 {
        return Ok(rows);
    }
    let mut ours = rows.clone();
    let t = &trial.thresholds;
    port::feed_in_parts(t, &[], &prices, &mut rows)
        .map_err(|refusal| format!("one feed to the plain box: refusal {refusal}"))?;
    let refusal = exports::feed(t, &[], &prices, &mut ours);
    if refusal != 0 {
        return Err(format!("one feed by jcc_feed: refusal {refusal}"));
    }
    match wrong_row(&ours, &rows) {
        Some(wrong) => Err(format!("one feed by jcc_feed, {wrong}")),
        None => Ok(rows),
    }
}

/// An error unless the calls give the number, the answers and the rows that are agreed on, and write
/// nothing else.
fn check_one(
    trial: &Trial,
    agreed: &Agreed,
    make: impl FnOnce(&mut [u8], &mut [u32]) -> u32,
) -> Result<(), String> {
    let Agreed { told, rows } = agreed;
    let mut sheet = Lent::new(trial.sheet);
    let mut answers = Lent::new(trial.answers);
    let made = make(sheet.elements(), answers.elements());
    if made != told.made {
        return Err(format!("making: {made} instead of {}", told.made));
    }
    let numbers = told.answers.iter().map(|answer| answer.number());
    let expected: Vec<u32> = numbers.take(trial.answers).collect();
    answers
        .check(&expected, |at, written| {
            let wanted = told.answers[at];
            let number = wanted.number();
            format!(
                "call {}: {} instead of {number} ({wanted:?})",
                at + 1,
                written[at]
            )
        })
        .map_err(|wrong| format!("answers, {wrong}"))?;
    sheet
        .check(rows, |_, written| {
            wrong_row(written, rows).unwrap_or_default()
        })
        .map_err(|wrong| format!("sheet, {wrong}"))
}

/// The first pair that is wrong; rows are counted from 1.
fn wrong_row(written: &[u8], rows: &[u8]) -> Option<String> {
    if written == rows {
        return None;
    }
    let at = written.iter().zip(rows).position(|(a, b)| a != b)?;
    let (row, recogniser) = (at / ROW_BYTES, at % ROW_BYTES / 2);
    let pair = |bytes: &[u8]| {
        let at = at / 2 * 2;
        jcc_types::Answer(u32::from(bytes[at]) * 256 + u32::from(bytes[at + 1])).to_string()
    };
    Some(format!(
        "row {}, recogniser {recogniser} ({}): {} instead of {}",
        row + 1,
        NAMES[recogniser],
        pair(written),
        pair(rows),
    ))
}
