//! The two layers, and the calls that both are handed.

use measure::{accepted, thresholds};
use terms_model::{List, REFUSED};

pub struct Layer {
    pub name: &'static str,
    make: fn(&List, &mut [u8], &mut [u32]) -> u32,
}

pub const LAYERS: [Layer; 2] = [
    Layer {
        name: "plain layer",
        make: |list, sheet, answers| list.make(sheet, answers),
    },
    Layer {
        name: "jcc_terms",
        make: exported,
    },
];

fn exported(list: &List, sheet: &mut [u8], answers: &mut [u32]) -> u32 {
    exports::terms(
        list.thresholds,
        list.minutes,
        list.hours,
        list.stamps,
        list.prices,
        list.calls,
        sheet,
        answers,
    )
}

/// Runs of one size over all bars, then a close.
pub struct Work<'a> {
    minutes: u32,
    hours: &'a [u32],
    stamps: &'a [u32],
    prices: &'a [f64],
    calls: Vec<u32>,
    answers: Vec<u32>,
}

impl<'a> Work<'a> {
    pub fn new(
        minutes: u32,
        hours: &'a [u32],
        stamps: &'a [u32],
        prices: &'a [f64],
        size: usize,
    ) -> Work<'a> {
        let mut calls = vec![size as u32; stamps.len().div_ceil(size)];
        calls.push(0);
        Work {
            minutes,
            hours,
            stamps,
            prices,
            answers: vec![REFUSED; calls.len()],
            calls,
        }
    }

    pub fn make(&mut self, layer: &Layer, sheet: &mut [u8]) {
        let list = List {
            thresholds: &thresholds(),
            minutes: self.minutes,
            hours: self.hours,
            stamps: self.stamps,
            prices: self.prices,
            calls: &self.calls,
        };
        accepted((layer.make)(&list, sheet, &mut self.answers));
    }

    /// The rows that the calls filled; the next answers are written anew.
    pub fn rows(&mut self) -> Result<usize, String> {
        if self.answers.iter().any(|answer| *answer >= REFUSED) {
            return Err(String::from("a call is refused or has no answer"));
        }
        let rows = self.answers.iter().map(|answer| *answer as usize).sum();
        self.answers.fill(REFUSED);
        Ok(rows)
    }
}
