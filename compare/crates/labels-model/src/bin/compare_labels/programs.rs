//! The two programs that are tested, and what they must print.

use crate::agree;
use jcc_types::RECOGNISERS;
use labels_model::judge::Judge;
use labels_model::printer::{Counts, Labels};
use labels_model::{Done, run};
use port::Tally;
use std::io::{self, BufRead};
use std::path::PathBuf;

/// Their places in what is said of both.
pub const LABELS: usize = 0;
pub const TALLY: usize = 1;

pub const NAMES: [&str; 2] = ["labels", "tally"];

pub type Programs = [PathBuf; 2];

/// What each of them prints.
pub type Outputs = [Vec<u8>; 2];

/// What the model prints.
pub struct Printed {
    pub outputs: Outputs,
    /// The labels among it.
    pub rows: u64,
    pub tally: Tally,
    pub done: io::Result<Done>,
}

impl Printed {
    pub fn of(input: impl BufRead, judge: &mut impl Judge) -> Printed {
        let mut printer = (Labels::new(Vec::new()), Counts::new(Vec::new()));
        let done = run(input, judge, &mut printer);
        let (labels, counts) = printer;
        Printed {
            outputs: [labels.output, counts.output],
            rows: labels.rows,
            tally: counts.tally,
            done,
        }
    }
}

/// An output that is not the one that is expected.
pub struct Wrong {
    pub who: &'static str,
    pub expected: Vec<u8>,
    pub printed: Vec<u8>,
}

/// The first wrong output. The tally is held to the printed labels and to the number of bars before
/// it is held to the model.
pub fn first_wrong(expected: &Printed, printed: &Outputs) -> Option<Wrong> {
    wrong_output(LABELS, expected, printed)
        .or_else(|| wrong_cells(printed))
        .or_else(|| wrong_sums(expected, printed))
        .or_else(|| wrong_output(TALLY, expected, printed))
}

fn wrong_output(program: usize, expected: &Printed, printed: &Outputs) -> Option<Wrong> {
    let [expected, printed] = [&expected.outputs[program], &printed[program]];
    (printed != expected).then(|| Wrong {
        who: NAMES[program],
        expected: expected.clone(),
        printed: printed.clone(),
    })
}

fn wrong_cells(printed: &Outputs) -> Option<Wrong> {
    let of_labels = agree::counted(&printed[LABELS]);
    let of_tally = agree::printed(&printed[TALLY]);
    (of_tally != of_labels).then(|| Wrong {
        who: "tally beside the printed labels",
        expected: of_labels.join(&b'\n'),
        printed: of_tally.join(&b'\n'),
    })
}

/// After a refusal there are no counts.
fn wrong_sums(expected: &Printed, printed: &Outputs) -> Option<Wrong> {
    let Ok(Done {
        bars,
        refusal: None,
    }) = expected.done
    else {
        return None;
    };
    let sums = agree::sums(&printed[TALLY]);
    (sums != Some([bars; RECOGNISERS])).then(|| Wrong {
        who: "sums of the tally",
        expected: format!("{bars} for each recogniser").into_bytes(),
        printed: format!("{sums:?}").into_bytes(),
    })
}

/// The first line in which two outputs differ.
pub fn first_difference(expected: &[u8], got: &[u8]) -> String {
    let mut expected = expected.split_inclusive(|byte| *byte == b'\n');
    let mut got = got.split_inclusive(|byte| *byte == b'\n');
    let mut number = 0;
    loop {
        number += 1;
        match (expected.next(), got.next()) {
            (None, None) => return "The outputs are equal.".to_string(),
            (a, b) if a == b => {}
            (a, b) => {
                let [a, b] = [a, b].map(|line| line.map(String::from_utf8_lossy));
                return format!("Output line {number}: {b:?} instead of {a:?}");
            }
        }
    }
}
