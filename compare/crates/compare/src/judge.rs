//! One call three ways: the export, the plain port and the repository, where it has a say.

use crate::families;
use crate::tally::Tally;
use inputs::hostile;
use inputs::known::Known;
use inputs::rng::Rng;
use inputs::{Case, report};
use jcc_types::{Answer, BAR_BYTES, Bar, REFUSED, Thresholds};
use oracle::{Oracle, Verdict};
use program::Difference;
use std::fmt::Write;
use std::iter;

/// The answers to one call; the repository has not always one.
struct Answers {
    ours: u32,
    port: u32,
    repository: Verdict,
}

impl Answers {
    fn differ(&self) -> bool {
        let repository = self.repository.answer();
        self.ours != self.port || repository.is_some_and(|answer| answer != self.port)
    }

    fn named(&self) -> Vec<(&'static str, u32)> {
        let mut answers = vec![("jcc_label", self.ours), ("plain port", self.port)];
        match self.repository {
            Verdict::Answer(answer) => answers.push(("repository", answer)),
            Verdict::Open(_, answer) => answers.push(("repository, in a corner", answer)),
            Verdict::NoAnswer => {}
        }
        answers
    }
}

pub struct Judge {
    oracle: Oracle,
    bytes: Bytes,
    pub tally: Tally,
}

impl Judge {
    pub fn new() -> Judge {
        Judge {
            oracle: Oracle::new(),
            bytes: Bytes::new(),
            tally: Tally::default(),
        }
    }

    /// Tries these recognisers at each offset of a case.
    pub fn check(
        &mut self,
        family: usize,
        case: &Case,
        recognisers: &[usize],
    ) -> Result<(), Difference> {
        self.hand_over(case);
        for offset in &case.offsets {
            for k in recognisers {
                self.call(family, *k, *offset, case)?;
            }
        }
        Ok(())
    }

    fn hand_over(&mut self, case: &Case) {
        self.oracle.set_history(&case.bars);
        self.oracle.set_thresholds(&case.thresholds);
        self.bytes.fill(&case.bars);
    }

    fn call(
        &mut self,
        family: usize,
        k: usize,
        offset: u32,
        case: &Case,
    ) -> Result<(), Difference> {
        let answers = self.answers(k, offset, case);
        if answers.differ() {
            return Err(in_family(family, self.smallest(k, offset, case)));
        }
        match answers.repository {
            Verdict::Answer(answer) => self.tally.count(family, k, answer),
            Verdict::Open(corner, answer) => {
                let differs = answer != answers.port;
                self.tally.count_corner(family, k, corner, differs);
            }
            Verdict::NoAnswer => self.tally.count_between(family, k),
        }
        Ok(())
    }

    /// The answers for the case that was handed over last.
    fn answers(&mut self, k: usize, offset: u32, case: &Case) -> Answers {
        let t = &case.thresholds;
        Answers {
            ours: label_export::label(k as u32, offset, t, self.bytes.slice()),
            port: port::label(k, offset, t, &case.bars).number(),
            repository: self.oracle.verdict(k, offset),
        }
    }

    /// A difference, shown on the fewest newest bars that have one.
    fn smallest(&mut self, k: usize, offset: u32, case: &Case) -> Difference {
        let all = case.bars.len();
        // Fewer bars than the offset are like none: they are not tried one by one, which for the
        // longest history would take hours.
        let judged = all.min(offset as usize);
        for count in iter::once(0).chain(judged..=all) {
            let mut part = case.clone();
            part.bars.drain(..all - count);
            self.hand_over(&part);
            let answers = self.answers(k, offset, &part);
            if answers.differ() {
                return difference(k as u32, offset, &part, &answers.named());
            }
        }
        unreachable!("the whole history has one")
    }

    /// With signalling NaN in the place of the quiet ones the export must answer the same. They are
    /// laid as bytes: in an f64 a processor may make them quiet.
    pub fn check_signalling(
        &mut self,
        family: usize,
        case: &Case,
        recognisers: &[usize],
        rng: &mut Rng,
    ) -> Result<(), Difference> {
        if !case
            .bars
            .iter()
            .any(|b| b.prices().iter().any(|p| p.is_nan()))
        {
            return Ok(());
        }
        let quiet = case
            .bars
            .iter()
            .flat_map(|b| b.to_bytes())
            .collect::<Vec<u8>>();
        let mut loud = quiet.clone();
        for word in loud.as_chunks_mut::<8>().0 {
            if f64::from_bits(u64::from_le_bytes(*word)).is_nan() {
                *word = hostile::signalling(rng).to_le_bytes();
            }
        }
        for offset in &case.offsets {
            for k in recognisers {
                let call = |bytes| label_export::label(*k as u32, *offset, &case.thresholds, bytes);
                let answers = [("quiet", call(&quiet)), ("signalling", call(&loud))];
                if answers[0].1 != answers[1].1 {
                    let found = difference(*k as u32, *offset, case, &answers);
                    return Err(in_family(family, found));
                }
                self.tally.count_only(family, *k);
            }
        }
        Ok(())
    }

    /// A call that may be refused: 01's list, as the port has it, and the port where none applies.
    pub fn check_refusal(
        &mut self,
        family: usize,
        recogniser: u32,
        offset: u32,
        t: &Thresholds,
        bytes: &[u8],
        bars: &[Bar],
    ) -> Result<(), Difference> {
        let ours = label_export::label(recogniser, offset, t, bytes);
        let expected = match port::refusal(recogniser, offset, t, bytes.len()) {
            Some(refusal) => REFUSED + refusal,
            None => {
                let bars = &bars[..bytes.len() / BAR_BYTES];
                port::label(recogniser as usize, offset, t, bars).number()
            }
        };
        if ours != expected {
            let case = Case {
                bars: Vec::new(),
                thresholds: *t,
                offsets: Vec::new(),
            };
            let answers = [("jcc_label", ours), ("01", expected)];
            let Difference(mut text) = difference(recogniser, offset, &case, &answers);
            writeln!(text, "over {} bytes of bars", bytes.len()).expect("text grows");
            return Err(in_family(family, Difference(text)));
        }
        self.tally.count_only(family, recogniser as usize);
        Ok(())
    }

    /// A printed answer. In a corner the repository's own answer is printed too and only counted.
    pub fn check_known(&mut self, family: usize, known: &Known) -> Result<(), Difference> {
        let case = Case {
            bars: known.bars.clone(),
            thresholds: known.thresholds,
            offsets: vec![known.offset],
        };
        self.check(family, &case, &[known.recogniser])?;
        let t = &case.thresholds;
        let port = port::label(known.recogniser, known.offset, t, &case.bars).number();
        if port != known.pair.number() {
            let answers = [("answered", port), ("printed", known.pair.number())];
            let Difference(text) =
                difference(known.recogniser as u32, known.offset, &case, &answers);
            let found = Difference(format!("{}\n{text}", known.name));
            return Err(in_family(family, found));
        }
        if let Some(printed) = known.repository {
            let repository = self.oracle.label(known.recogniser, known.offset);
            let seen = repository == printed.number();
            println!(
                "{}: the repository gives {}, {}",
                known.name,
                Answer(repository),
                if seen { "as printed" } else { "not as printed" },
            );
        }
        Ok(())
    }
}

fn in_family(family: usize, Difference(text): Difference) -> Difference {
    let name = families::names().nth(family).unwrap_or("none");
    Difference(format!("family {name}\n{text}"))
}

fn difference(k: u32, offset: u32, case: &Case, answers: &[(&str, u32)]) -> Difference {
    Difference(report::call(k, offset, case, answers))
}

/// A history as bytes, at any alignment.
struct Bytes {
    store: Vec<u8>,
    shift: usize,
}

impl Bytes {
    fn new() -> Bytes {
        Bytes {
            store: Vec::new(),
            shift: 0,
        }
    }

    /// Each history begins at another remainder of 8.
    fn fill(&mut self, bars: &[Bar]) {
        self.shift = (self.shift + 1) % 8;
        self.store.clear();
        self.store.resize(self.shift, 0);
        for bar in bars {
            self.store.extend_from_slice(&bar.to_bytes());
        }
    }

    fn slice(&self) -> &[u8] {
        &self.store[self.shift..]
    }
}
