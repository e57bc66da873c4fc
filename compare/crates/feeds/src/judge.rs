//! What a box must say, and whether the exports and the plain box say it.
//!
//! The rows are the repository's answers at offset 1 over the history up to each bar, a look is its
//! answer over the whole history; where it has no say, the plain port answers instead. Of ordinals it
//! knows nothing: they are told from the number of bars.

use crate::counts::Counts;
use crate::ordinal::{self, Ordinal};
use crate::sheet::{Sheet, pair_at};
use crate::tally::Tally;
use crate::text;
use crate::trial::Trial;
use inputs::looks::Look;
use inputs::rng::Rng;
use inputs::{cuts, hostile, looks, tallies};
use jcc_types::{Bar, Label, MOST_OFFSET, Pair, RECOGNISERS, REFUSED, ROW_BYTES, Thresholds};
use oracle::{Oracle, Verdict};
use port::{Looked, PlainBox};
use program::Difference;

/// Bytes of a sheet past the rows: none, or less or more than a row.
const SPARE: [usize; 6] = [0, 0, 1, ROW_BYTES - 1, ROW_BYTES, 100];

/// The recogniser whose answer to a look may be another than the printed one: its gate reads bars
/// that are newer than the judged one.
const THREE_CROW: usize = 12;

/// How often a history with NaN is fed with other NaN patterns.
const PATTERNS: usize = 2;

pub struct Judge {
    oracle: Oracle,
    pub tally: Tally,
}

impl Judge {
    pub fn new() -> Judge {
        Judge {
            oracle: Oracle::new(),
            tally: Tally::default(),
        }
    }

    /// A history in many cuts, with an ordinal for each, and some looks at it. After an error the trial
    /// is the one that was wrong.
    pub fn try_history(&mut self, trial: &mut Trial, rng: &mut Rng) -> Result<(), String> {
        let count = trial.bars.len();
        let rows = self.rows(trial)?;
        let cuts = cuts::all(rng, count);
        for sizes in &cuts {
            trial.sizes.clone_from(sizes);
            trial.spare = rng.pick(&SPARE);
            trial.counts = rng.pick(&tallies::LENGTHS);
            self.try_feeds(&rows, trial)?;
        }
        self.try_patterns(&rows, trial, rng)?;
        let plain = check_plain_box(&rows, trial)?;
        for sizes in cuts {
            trial.sizes = sizes;
            self.try_ordinal(&rows, &plain, trial, looks::random(rng, count))?;
        }
        for _ in 0..look_count(count) {
            trial.sizes = cuts::random(rng, count);
            let look = looks::random(rng, count);
            self.try_look(&rows, &plain, trial, look)?;
        }
        for look in crows(&rows, trial) {
            self.try_look(&rows, &plain, trial, look)?;
        }
        Ok(())
    }

    /// Every recogniser at every offset.
    pub fn try_all_looks(&mut self, trial: &mut Trial, rng: &mut Rng) -> Result<(), String> {
        let rows = self.rows(trial)?;
        let plain = check_plain_box(&rows, trial)?;
        for look in looks::all() {
            trial.sizes = cuts::random(rng, trial.bars.len());
            self.try_look(&rows, &plain, trial, look)?;
            self.try_ordinal(&rows, &plain, trial, look)?;
        }
        Ok(())
    }

    /// A history so long that the repository judges only some of its rows; the plain box judges
    /// all.
    pub fn try_long(&mut self, trial: &mut Trial, looks: &[Look]) -> Result<(), String> {
        let mut sheet = Sheet::new(trial.sheet_len());
        let plain = feed_plain_box(trial, sheet.bytes())?;
        let rows = &sheet.bytes()[..trial.bars.len() * ROW_BYTES];
        self.judge_some_rows(rows, trial)?;
        self.try_feeds(rows, trial)?;
        for look in looks {
            self.try_look(rows, &plain, trial, *look)?;
            self.try_ordinal(rows, &plain, trial, *look)?;
        }
        Ok(())
    }

    fn try_feeds(&mut self, rows: &[u8], trial: &Trial) -> Result<(), String> {
        check_feeds(rows, trial)?;
        self.tally.rows += trial.bars.len() as u64;
        self.tally.tallies += 1;
        Ok(())
    }

    /// No label depends on which NaN it is, quiet or signalling.
    fn try_patterns(
        &mut self,
        rows: &[u8],
        trial: &mut Trial,
        rng: &mut Rng,
    ) -> Result<(), String> {
        if !trial.has_nan() {
            return Ok(());
        }
        for _ in 0..PATTERNS {
            trial.nan = Some(hostile::nan(rng));
            check_feeds(rows, trial)?;
            self.tally.patterns += trial.bars.len() as u64;
        }
        trial.nan = None;
        Ok(())
    }

    fn try_look(
        &mut self,
        rows: &[u8],
        plain: &PlainBox,
        trial: &mut Trial,
        look: Look,
    ) -> Result<(), String> {
        trial.look = Some(look);
        self.check_look(rows, plain, trial, look)?;
        self.tally.looks += 1;
        Ok(())
    }

    fn try_ordinal(
        &mut self,
        rows: &[u8],
        plain: &PlainBox,
        trial: &mut Trial,
        look: Look,
    ) -> Result<(), String> {
        trial.look = Some(look);
        let ordinal = check_ordinal(rows, plain, trial, look)?;
        self.tally.see_ordinal(ordinal);
        Ok(())
    }

    /// The first of the simplest trials that are wrong, as far as it gets simpler.
    pub fn simplest(&mut self, trial: Trial, wrong: String) -> Difference {
        let mut found = (trial, wrong);
        while let Some(simpler) = self.simpler(&found.0) {
            found = simpler;
        }
        let (trial, wrong) = found;
        Difference(format!("{wrong}\n{trial}"))
    }

    fn simpler(&mut self, trial: &Trial) -> Option<(Trial, String)> {
        let mut wrong = |trial: Trial| self.check(&trial).err().map(|wrong| (trial, wrong));
        trial.simpler().into_iter().find_map(&mut wrong)
    }

    /// A trial alone.
    fn check(&mut self, trial: &Trial) -> Result<(), String> {
        let rows = self.rows(trial)?;
        let plain = check_plain_box(&rows, trial)?;
        check_feeds(&rows, trial)?;
        if let Some(look) = trial.look {
            self.check_look(&rows, &plain, trial, look)?;
            check_ordinal(&rows, &plain, trial, look)?;
        }
        Ok(())
    }

    /// The rows that a sheet must have. The repository then holds the whole history, for looks.
    fn rows(&mut self, trial: &Trial) -> Result<Vec<u8>, String> {
        let mut rows = Vec::with_capacity(trial.bars.len() * ROW_BYTES);
        self.start(trial);
        for (i, bar) in trial.bars.iter().enumerate() {
            self.oracle.push(bar);
            for k in 0..RECOGNISERS {
                let number = self.pair(k, 1, &trial.thresholds, &trial.bars[..=i])?;
                rows.extend((number as u16).to_be_bytes());
            }
        }
        self.tally.judged += trial.bars.len() as u64;
        Ok(rows)
    }

    /// Judges every so-and-so-many-th row, and the newest.
    fn judge_some_rows(&mut self, rows: &[u8], trial: &Trial) -> Result<(), String> {
        const STEP: usize = 101;
        const NEWEST: usize = 200;
        let count = trial.bars.len();
        self.start(trial);
        for (i, bar) in trial.bars.iter().enumerate() {
            self.oracle.push(bar);
            if i % STEP != 0 && i + NEWEST < count {
                continue;
            }
            for k in 0..RECOGNISERS {
                let number = self.pair(k, 1, &trial.thresholds, &trial.bars[..=i])?;
                if pair_at(rows, i, k) != number {
                    let wrong = text::pair(k as u32, number, pair_at(rows, i, k));
                    return Err(format!("plain box, row {}, {wrong}", i + 1));
                }
            }
            self.tally.judged += 1;
        }
        Ok(())
    }

    fn start(&mut self, trial: &Trial) {
        self.oracle.set_history(&[]);
        self.oracle.set_thresholds(&trial.thresholds);
    }

    /// The pair over the bars that the repository holds.
    fn pair(&mut self, k: usize, offset: u32, t: &Thresholds, bars: &[Bar]) -> Result<u32, String> {
        let plain = port::label(k, offset, t, bars).number();
        match self.oracle.verdict(k, offset) {
            Verdict::Answer(answer) if answer != plain => {
                let wrong = text::pair(k as u32, answer, plain);
                return Err(format!("plain port, bar {}, {wrong}", bars.len()));
            }
            Verdict::Answer(answer) => self.tally.see(k, answer),
            Verdict::Open(corner, answer) => self.tally.count_corner(corner, answer != plain),
            Verdict::NoAnswer => self.tally.between += 1,
        }
        Ok(plain)
    }

    fn check_look(
        &mut self,
        rows: &[u8],
        plain: &PlainBox,
        trial: &Trial,
        look: Look,
    ) -> Result<(), String> {
        let Look { recogniser, offset } = look;
        let expected = match port::look_refusal(recogniser, offset) {
            Some(refusal) => REFUSED + refusal,
            None => self.looked(rows, trial, look)?,
        };
        let ours = ask("jcc_look", exports::look, rows, trial, look)?;
        let plain = number(plain.look(recogniser, offset));
        for (who, got) in [("jcc_look", ours), ("look at the plain box", plain)] {
            if got != expected {
                return Err(format!("{who}, {}", text::pair(recogniser, expected, got)));
            }
        }
        Ok(())
    }

    /// The pair that a look must give. All recognisers but one give what was printed.
    fn looked(&mut self, rows: &[u8], trial: &Trial, look: Look) -> Result<u32, String> {
        let k = look.recogniser as usize;
        let expected = self.pair(k, look.offset, &trial.thresholds, &trial.bars)?;
        if let Ordinal::Of(ordinal) = Ordinal::told(trial.bars.len(), look) {
            let printed = pair_at(rows, ordinal as usize - 1, k);
            if k != THREE_CROW && printed != expected {
                let wrong = text::pair(look.recogniser, printed, expected);
                return Err(format!("the repository over the whole history, {wrong}"));
            }
            self.tally.see_look(printed != expected);
        }
        Ok(expected)
    }
}

/// More looks at short histories: a look feeds all bars again.
fn look_count(bars: usize) -> usize {
    (2000 / bars.max(1)).clamp(20, 100)
}

/// The looks at which 12 found its crows when the bar was fed, or finds them now: they are few, and
/// the only ones whose answer may have changed since.
fn crows(rows: &[u8], trial: &Trial) -> Vec<Look> {
    const NONE: u32 = Pair(Label::Other, Label::Other).number();
    let count = trial.bars.len();
    let found = |offset: u32| {
        let now = port::label(THREE_CROW, offset, &trial.thresholds, &trial.bars);
        let row = count - offset as usize;
        now.number() != NONE || pair_at(rows, row, THREE_CROW) != NONE
    };
    let offsets = (1..=MOST_OFFSET).take_while(|offset| *offset as usize <= count);
    let look = |offset| Look {
        recogniser: THREE_CROW as u32,
        offset,
    };
    offsets.filter(|offset| found(*offset)).map(look).collect()
}

/// The export's form of a look's outcome.
fn number(outcome: Result<Looked, u32>) -> u32 {
    match outcome {
        Ok(looked) => looked.pair.number(),
        Err(refusal) => REFUSED + refusal,
    }
}

/// The ordinal, if all say the same.
fn check_ordinal(
    rows: &[u8],
    plain: &PlainBox,
    trial: &Trial,
    look: Look,
) -> Result<Ordinal, String> {
    let expected = Ordinal::told(trial.bars.len(), look);
    let ours = ask("jcc_look_ordinal", exports::look_ordinal, rows, trial, look)?;
    let plain = ordinal::of_plain_box(plain, look);
    for (who, got) in [("jcc_look_ordinal", ours), ("look at the plain box", plain)] {
        if got != expected.number() {
            return Err(format!("{who}, {}", text::ordinal(look, expected, got)));
        }
    }
    Ok(expected)
}

/// An export that feeds a fresh box and then looks at it.
type LookExport = fn(u32, u32, &Thresholds, &[u32], &[f64], &mut [u8]) -> u32;

/// What an export says of a look, if the sheet that it leaves is that of the feeds.
fn ask(
    name: &str,
    export: LookExport,
    rows: &[u8],
    trial: &Trial,
    look: Look,
) -> Result<u32, String> {
    let mut sheet = Sheet::new(trial.sheet_len());
    let said = export(
        look.recogniser,
        look.offset,
        &trial.thresholds,
        &trial.sizes,
        &trial.prices(),
        sheet.bytes(),
    );
    match sheet.check(rows) {
        Ok(()) => Ok(said),
        Err(wrong) => Err(format!("{name}, {wrong}")),
    }
}

/// The feeds without and with a tally.
fn check_feeds(rows: &[u8], trial: &Trial) -> Result<(), String> {
    let prices = trial.prices();
    check_feed(rows, trial, &prices).map_err(|wrong| format!("jcc_feed, {wrong}"))?;
    check_tally(rows, trial, &prices).map_err(|wrong| format!("jcc_tally, {wrong}"))
}

fn check_feed(rows: &[u8], trial: &Trial, prices: &[f64]) -> Result<(), String> {
    let mut sheet = Sheet::new(trial.sheet_len());
    let t = &trial.thresholds;
    accepted(exports::feed(t, &trial.sizes, prices, sheet.bytes()))?;
    sheet.check(rows)
}

fn check_tally(rows: &[u8], trial: &Trial, prices: &[f64]) -> Result<(), String> {
    let mut sheet = Sheet::new(trial.sheet_len());
    let mut counts = Counts::new(&tallies::fresh(trial.counts));
    accepted(exports::tally(
        &trial.thresholds,
        &trial.sizes,
        prices,
        sheet.bytes(),
        counts.numbers(),
    ))?;
    sheet.check(rows)?;
    counts.check_sums(trial.bars.len())?;
    counts.check(&port::Tally::of_sheet(rows))
}

fn accepted(answer: u32) -> Result<(), String> {
    match answer {
        0 => Ok(()),
        refusal => Err(format!("refusal {refusal} instead of none")),
    }
}

/// The plain box after its feeds, if its rows are right.
fn check_plain_box(rows: &[u8], trial: &Trial) -> Result<PlainBox, String> {
    let mut sheet = Sheet::new(trial.sheet_len());
    let plain = feed_plain_box(trial, sheet.bytes())?;
    sheet
        .check(rows)
        .map_err(|wrong| format!("plain box, {wrong}"))?;
    Ok(plain)
}

fn feed_plain_box(trial: &Trial, sheet: &mut [u8]) -> Result<PlainBox, String> {
    port::feed_in_parts(&trial.thresholds, &trial.sizes, &trial.prices(), sheet)
        .map_err(|refusal| format!("plain box: refusal {refusal} instead of none"))
}

/// The bars up to the first row in which `jcc_feed` and the plain box differ; all if there is none.
pub fn bars_to_wrong_row(trial: &Trial) -> usize {
    let mut ours = vec![0; trial.sheet_len()];
    let mut plain = ours.clone();
    let (t, sizes, prices) = (&trial.thresholds, &trial.sizes, trial.prices());
    exports::feed(t, sizes, &prices, &mut ours);
    let _ = port::feed_in_parts(t, sizes, &prices, &mut plain);
    let mut rows = ours.chunks(ROW_BYTES).zip(plain.chunks(ROW_BYTES));
    let wrong = rows.position(|(a, b)| a != b);
    wrong.map_or(trial.bars.len(), |row| trial.bars.len().min(row + 1))
}
