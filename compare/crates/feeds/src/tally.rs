//! What was compared.

use crate::ordinal::Ordinal;
use inputs::families::PIECES;
use inputs::pairs::{PLACES, place, possible};
use jcc_types::RECOGNISERS;
use oracle::corner::Corner;
use program::add_counts;

/// The kinds of ordinals: the last two are 0.
const ORDINALS: [&str; 3] = ["of a bar", "beyond the history", "in a refused call"];

pub struct Tally {
    /// Random histories by family, and their bars.
    pub histories: [[u64; 2]; PIECES.len()],
    /// Rows that the repository judged, but for the pairs in which it has no say.
    pub judged: u64,
    /// Pairs that it gave, for rows and looks.
    given: u64,
    /// Pairs of 13 and 14 with a threshold that is no multiple of ten: the plain port's.
    pub between: u64,
    /// Rows of the export compared with them: each as often as its history was cut.
    pub rows: u64,
    /// Tallies that were compared: one of each cut.
    pub tallies: u64,
    /// Rows of histories handed over with other NaN patterns.
    pub patterns: u64,
    pub looks: u64,
    /// Looks within the history, and those of them with another pair than the printed one.
    looked: [u64; 2],
    /// Ordinals of looks, by kind.
    ordinals: [u64; ORDINALS.len()],
    /// Calls that may be refused.
    pub refusals: u64,
    /// Pairs in each corner, and how many of them the repository answers otherwise than 01.
    corners: [[u64; 2]; Corner::ALL.len()],
    /// The pairs that the repository gave, by recogniser, at their places.
    seen: Vec<Vec<bool>>,
}

impl Default for Tally {
    fn default() -> Tally {
        Tally {
            histories: [[0; 2]; PIECES.len()],
            judged: 0,
            given: 0,
            between: 0,
            rows: 0,
            tallies: 0,
            patterns: 0,
            looks: 0,
            looked: [0; 2],
            ordinals: [0; ORDINALS.len()],
            refusals: 0,
            corners: [[0; 2]; Corner::ALL.len()],
            seen: vec![vec![false; PLACES]; RECOGNISERS],
        }
    }
}

impl Tally {
    pub fn count_history(&mut self, family: usize, bars: usize) {
        add_counts(&mut self.histories[family], &[1, bars as u64]);
    }

    pub fn count_corner(&mut self, corner: Corner, differs: bool) {
        add_counts(&mut self.corners[corner as usize], &[1, differs.into()]);
    }

    /// A pair that the repository gave.
    pub fn see(&mut self, k: usize, pair: u32) {
        self.given += 1;
        self.seen[k][place(pair)] = true;
    }

    pub fn see_look(&mut self, other: bool) {
        add_counts(&mut self.looked, &[1, other.into()]);
    }

    pub fn see_ordinal(&mut self, ordinal: Ordinal) {
        let kind = match ordinal {
            Ordinal::Of(_) => 0,
            Ordinal::Beyond => 1,
            Ordinal::Refused => 2,
        };
        self.ordinals[kind] += 1;
    }

    pub fn ordinals(&self) -> u64 {
        self.ordinals.iter().sum()
    }

    /// An error if a kind of ordinal never came up.
    pub fn check_ordinals(&self) -> Result<(), String> {
        let mut kinds = ORDINALS.iter().zip(self.ordinals);
        match kinds.find(|(_, count)| *count == 0) {
            Some((kind, _)) => Err(format!("no ordinal {kind} was compared")),
            None => Ok(()),
        }
    }

    /// Pairs seen among those that the recognisers can give.
    fn coverage(&self) -> [usize; 2] {
        let seen = |k: usize| {
            possible(k)
                .iter()
                .filter(|p| self.seen[k][place(p.number())])
                .count()
        };
        [
            (0..RECOGNISERS).map(seen).sum(),
            (0..RECOGNISERS).map(|k| possible(k).len()).sum(),
        ]
    }
}

impl program::Tally for Tally {
    fn add(&mut self, more: &Tally) {
        for (sum, n) in [
            (&mut self.judged, more.judged),
            (&mut self.given, more.given),
            (&mut self.between, more.between),
            (&mut self.rows, more.rows),
            (&mut self.tallies, more.tallies),
            (&mut self.patterns, more.patterns),
            (&mut self.looks, more.looks),
            (&mut self.refusals, more.refusals),
        ] {
            *sum += n;
        }
        add_counts(&mut self.looked, &more.looked);
        add_counts(&mut self.ordinals, &more.ordinals);
        let histories = self.histories.as_flattened_mut();
        add_counts(histories, more.histories.as_flattened());
        add_counts(self.corners.as_flattened_mut(), more.corners.as_flattened());
        for (mine, more) in self.seen.iter_mut().zip(&more.seen) {
            mine.iter_mut().zip(more).for_each(|(a, b)| *a |= b);
        }
    }

    fn print(&self) {
        println!("\n{:12}{:>11}{:>11}", "", "histories", "bars");
        for (family, [histories, bars]) in PIECES.iter().zip(self.histories) {
            println!("{:12}{histories:>11}{bars:>11}", family.name);
        }
        let pairs = RECOGNISERS as u64;
        let [seen, possible] = self.coverage();
        println!(
            "\nJudged by the repository: {} rows; {} pairs with looks, {seen} of {possible} kinds seen",
            self.judged, self.given,
        );
        println!(
            "Compared in all cuts: {} rows, {} pairs; with other NaN patterns: {} rows",
            self.rows,
            self.rows * pairs,
            self.patterns,
        );
        let [within, other] = self.looked;
        println!(
            "Looks: {}; {within} within the history, {other} with another pair than the row's",
            self.looks,
        );
        let [_, beyond, refused] = self.ordinals;
        println!(
            "Ordinals: {}; {beyond} are 0 beyond the history, {refused} are 0 in a refused call",
            self.ordinals(),
        );
        println!("Calls that may be refused: {}", self.refusals);
        println!(
            "Thresholds between multiples of ten: {} pairs, judged by the plain port alone",
            self.between,
        );
        for (corner, [pairs, differ]) in Corner::ALL.iter().zip(self.corners) {
            println!("Corner {corner:?}: {pairs} pairs, the repository differs in {differ}");
        }
    }
}
