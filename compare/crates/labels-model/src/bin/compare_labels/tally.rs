//! What was compared.

use crate::process::Ended;
use crate::programs::Printed;
use inputs::pairs::possible;
use jcc_types::{LABELS, RECOGNISERS};
use labels_model::line::MOST;
use labels_model::refusal::Refusal;
use program::add_counts;
use std::collections::{BTreeMap, BTreeSet};

/// Why a line was refused, by what it is.
const KINDS: [&str; 10] = [
    "8: empty",
    "8: too long, four fields",
    "8: too long",
    "8: another number of fields",
    "9: at 1",
    "9: at 2",
    "9: at 3",
    "9: at 4",
    "9: 80 bytes",
    "5",
];

#[derive(Default)]
pub struct Tally {
    pub inputs: u64,
    /// Runs of the programs; some inputs are handed over in two ways.
    runs: u64,
    lines: u64,
    bytes: u64,
    rows: u64,
    /// Lines of tallies, and the cells that they were for: recogniser and code.
    counts: u64,
    cells: BTreeSet<(usize, usize)>,
    refusals: [u64; KINDS.len()],
    /// Inputs that the repository judged, and their pairs in 01's corners.
    pub judged: u64,
    pub corners: u64,
    /// Runs whose output could not be written or input could not be read.
    pub endings: u64,
    /// Runs that stopped at a refused line while the input stayed open, and those that did not.
    open: [u64; 2],
    /// How many runs ended with each exit status.
    statuses: BTreeMap<String, u64>,
}

impl Tally {
    pub fn count(&mut self, input: &[u8], printed: &Printed) {
        let done = printed
            .done
            .as_ref()
            .expect("bytes can be read and written");
        self.inputs += 1;
        self.bytes += input.len() as u64;
        self.rows += printed.rows;
        self.lines += done.bars;
        match done.refusal {
            Some(refusal) => {
                self.lines += 1;
                self.refusals[kind(input, done.bars as usize, refusal)] += 1;
            }
            None => {
                for (recogniser, code, _) in printed.tally.cells() {
                    self.counts += 1;
                    self.cells.insert((recogniser, code));
                }
            }
        }
    }

    pub fn count_run(&mut self, ended: &Ended) {
        self.runs += 1;
        self.count_status(ended.status.to_string());
    }

    pub fn count_status(&mut self, status: String) {
        *self.statuses.entry(status).or_default() += 1;
    }

    pub fn count_open(&mut self, is_stopped: bool) {
        self.open[usize::from(!is_stopped)] += 1;
    }

    /// The kinds of refused lines that no input had, and the counts that no tally had.
    pub fn unseen(&self) -> Vec<String> {
        let kinds = KINDS.iter().zip(self.refusals).filter(|(_, n)| *n == 0);
        let kinds = kinds.map(|(kind, _)| format!("refusal {kind}"));
        let cells = (0..RECOGNISERS).flat_map(|k| possible(k).into_iter().map(move |p| (k, p.0)));
        let cells: BTreeSet<_> = cells.map(|(k, v1)| (k, v1 as usize)).collect();
        let counts = cells.difference(&self.cells);
        kinds
            .chain(counts.map(|(k, code)| format!("count {k},{}", LABELS[*code])))
            .collect()
    }
}

impl program::Tally for Tally {
    fn add(&mut self, more: &Tally) {
        for (sum, n) in [
            (&mut self.inputs, more.inputs),
            (&mut self.runs, more.runs),
            (&mut self.lines, more.lines),
            (&mut self.bytes, more.bytes),
            (&mut self.rows, more.rows),
            (&mut self.counts, more.counts),
            (&mut self.judged, more.judged),
            (&mut self.corners, more.corners),
            (&mut self.endings, more.endings),
        ] {
            *sum += n;
        }
        add_counts(&mut self.refusals, &more.refusals);
        add_counts(&mut self.open, &more.open);
        self.cells.extend(&more.cells);
        for (status, n) in &more.statuses {
            *self.statuses.entry(status.clone()).or_default() += n;
        }
    }

    fn print(&self) {
        println!(
            "runs={} judged by the repository={} pairs in a corner={} endings={}",
            self.runs, self.judged, self.corners, self.endings
        );
        for (status, n) in &self.statuses {
            println!("{status}: {n} runs");
        }
        let [stopped, waited] = self.open;
        println!("a refused line while the input stays open: stopped={stopped} waited={waited}");
        for (kind, n) in KINDS.iter().zip(self.refusals) {
            println!("refusal {kind}: {n} inputs");
        }
        println!("kinds of counts: {}", self.cells.len());
        println!(
            "inputs={} lines={} bytes={} rows={} counts={} differences=0",
            self.inputs, self.lines, self.bytes, self.rows, self.counts
        );
    }
}

/// The kind of a refused line, which comes after so many others.
fn kind(input: &[u8], before: usize, refusal: Refusal) -> usize {
    let line = input.split(|byte| *byte == b'\n').nth(before);
    let line = line.expect("the refused line is in the input");
    match refusal.place {
        Some(_) if line.len() == MOST => 8,
        Some(place) => 3 + place,
        None if refusal != Refusal::SHAPE => 9,
        None if line.is_empty() => 0,
        None if line.len() <= MOST => 3,
        None if line.split(|byte| *byte == b',').count() == 4 => 1,
        None => 2,
    }
}
