//! 02's tally, plainly: how many rows of the sheets have each v1 of each recogniser.

use jcc_types::{LABELS, RECOGNISERS, ROW_BYTES};

/// What a recogniser gave, by code.
type Counts = [u32; LABELS.len()];

#[derive(Clone, Debug, PartialEq, Eq)]
pub struct Tally {
    rows: [Counts; RECOGNISERS],
}

impl Tally {
    /// That of a fresh box.
    pub fn new() -> Tally {
        Tally {
            rows: [[0; LABELS.len()]; RECOGNISERS],
        }
    }

    /// Of the numbers that an export is lent: those that are missing are zero, those past the last
    /// count are not read.
    pub fn of_numbers(numbers: &[u32]) -> Tally {
        let mut tally = Tally::new();
        let counts = tally.rows.as_flattened_mut();
        counts.iter_mut().zip(numbers).for_each(|(c, n)| *c = *n);
        tally
    }

    /// Of the rows of sheets.
    pub fn of_sheet(sheet: &[u8]) -> Tally {
        let mut tally = Tally::new();
        tally.count_rows(sheet);
        tally
    }

    pub fn count_rows(&mut self, sheet: &[u8]) {
        let (rows, _) = sheet.as_chunks();
        rows.iter().for_each(|row| self.count(row));
    }

    /// Counts the v1 of each recogniser in a bar's row.
    pub fn count(&mut self, row: &[u8; ROW_BYTES]) {
        for (counts, [v1, _]) in self.rows.iter_mut().zip(row.as_chunks().0) {
            counts[usize::from(*v1)] += 1;
        }
    }

    /// Whether each recogniser's counts add up to the bars that were fed.
    pub fn adds_up_to(&self, fed: usize) -> bool {
        let sum = |counts: &Counts| counts.iter().map(|n| u64::from(*n)).sum::<u64>();
        self.rows.iter().all(|counts| sum(counts) == fed as u64)
    }

    /// All counts, by recogniser, then code.
    pub fn numbers(&self) -> &[u32] {
        self.rows.as_flattened()
    }

    /// The recogniser, code and count of each cell that is not zero, by recogniser, then code.
    pub fn cells(&self) -> impl Iterator<Item = (usize, usize, u32)> {
        let cells = self.rows.iter().enumerate().flat_map(|(k, counts)| {
            let counts = counts.iter().enumerate();
            counts.map(move |(code, n)| (k, code, *n))
        });
        cells.filter(|(_, _, n)| *n != 0)
    }
}

impl Default for Tally {
    fn default() -> Tally {
        Tally::new()
    }
}
