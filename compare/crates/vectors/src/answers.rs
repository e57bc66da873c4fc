//! The list that is written: lines of calls and their answers.

use crate::cover::Cover;
use inputs::known::Known;
use inputs::{Case, list};
use jcc_types::{BAR_BYTES, RECOGNISERS, REFUSED, Thresholds};
use oracle::{Oracle, Verdict};
use std::path::Path;
use std::{fs, io};

/// How often each pair of each recogniser is wanted at least.
const WANTED: u32 = 4;

pub struct Answers {
    calls: String,
    answers: String,
    count: usize,
    /// The thresholds that the lines so far have set.
    set: [u8; Thresholds::BYTES],
    oracle: Oracle,
    pub cover: Cover,
}

impl Answers {
    pub fn new() -> Answers {
        Answers {
            calls: String::new(),
            answers: String::new(),
            count: 0,
            set: [0; Thresholds::BYTES],
            oracle: Oracle::new(),
            cover: Cover::new(WANTED),
        }
    }

    /// Hands the repository a case.
    pub fn judge(&mut self, case: &Case) {
        self.oracle.set_history(&case.bars);
        self.oracle.set_thresholds(&case.thresholds);
    }

    /// The answer for the case that the repository was handed last: the repository's, the port's
    /// where the threshold is no multiple of ten, and none in a corner.
    fn judged(&mut self, k: usize, offset: u32, case: &Case) -> Option<u32> {
        match self.oracle.verdict(k, offset) {
            Verdict::Answer(answer) => Some(answer),
            Verdict::NoAnswer => Some(by_port(k, offset, case)),
            Verdict::Open(..) => None,
        }
    }

    /// Whether the repository gives for the case it was handed a pair that is not in the list often
    /// enough.
    pub fn wants(&mut self, k: usize, offset: u32) -> bool {
        let answer = self.oracle.verdict(k, offset).answer();
        answer.is_some_and(|pair| self.cover.wants(k, pair))
    }

    /// The lines of a case's history.
    pub fn history(&mut self, case: &Case) {
        self.judge(case);
        list::history(&mut self.calls, &case.bars);
    }

    /// The line of a case's thresholds, unless they are set already.
    pub fn thresholds(&mut self, case: &Case) {
        self.judge(case);
        let bytes = case.thresholds.to_bytes();
        if self.set != bytes {
            self.set = bytes;
            list::thresholds(&mut self.calls, &case.thresholds);
        }
    }

    /// A call on the history and thresholds of the last lines; left out in a corner.
    pub fn call(&mut self, recogniser: u32, offset: u32, case: &Case) {
        let bytes = case.bars.len() * BAR_BYTES;
        if let Some(refusal) = port::refusal(recogniser, offset, &case.thresholds, bytes) {
            self.answer(recogniser, offset, REFUSED + refusal);
        } else if let Some(pair) = self.judged(recogniser as usize, offset, case) {
            self.pair(recogniser as usize, offset, pair);
        }
    }

    /// A call with its pair, which is covered only if the repository gives it.
    fn pair(&mut self, k: usize, offset: u32, pair: u32) {
        if self.oracle.verdict(k, offset).answer().is_some() {
            self.cover.count(k, pair);
        }
        self.answer(k as u32, offset, pair);
    }

    fn answer(&mut self, recogniser: u32, offset: u32, answer: u32) {
        list::call(&mut self.calls, recogniser, offset);
        self.answers.push_str(&format!("{answer}\n"));
        self.count += 1;
    }

    /// A case with some recognisers at each of its offsets, unless all these calls are in a corner.
    pub fn add(&mut self, case: &Case, recognisers: &[usize]) {
        self.judge(case);
        let at = |offset: u32| recognisers.iter().map(move |k| (*k, offset));
        let mut calls = case.offsets.iter().copied().flat_map(at);
        if calls.all(|(k, offset)| self.judged(k, offset, case).is_none()) {
            return;
        }
        self.history(case);
        self.thresholds(case);
        for offset in &case.offsets {
            for k in recognisers {
                self.call(*k as u32, *offset, case);
            }
        }
    }

    pub fn add_all(&mut self, case: &Case) {
        let all: Vec<usize> = (0..RECOGNISERS).collect();
        self.add(case, &all);
    }

    /// A printed answer, which the port must give, and the repository where it has a say.
    pub fn add_known(&mut self, known: &Known) {
        let case = Case {
            bars: known.bars.clone(),
            thresholds: known.thresholds,
            offsets: vec![known.offset],
        };
        self.history(&case);
        self.thresholds(&case);
        let (k, offset, pair) = (known.recogniser, known.offset, known.pair.number());
        let repository = self.oracle.verdict(k, offset).answer();
        for answer in [Some(by_port(k, offset, &case)), repository] {
            assert!(
                answer.is_none_or(|a| a == pair),
                "{}: {answer:?}",
                known.name
            );
        }
        self.pair(k, offset, pair);
    }

    pub fn write(&self, folder: &Path) -> io::Result<()> {
        fs::create_dir_all(folder)?;
        fs::write(folder.join("stdin"), &self.calls)?;
        fs::write(folder.join("stdout"), &self.answers)
    }

    pub fn summary(&self) -> String {
        format!(
            "{} answers, {} bytes of calls",
            self.count,
            self.calls.len()
        )
    }
}

fn by_port(k: usize, offset: u32, case: &Case) -> u32 {
    port::label(k, offset, &case.thresholds, &case.bars).number()
}
