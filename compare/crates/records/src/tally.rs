//! What was called and what came out.

use inputs::pairs::possible;
use jcc_types::{RECOGNISERS, REFUSED};
use std::collections::{BTreeMap, BTreeSet};

#[derive(Default)]
pub struct Tally {
    pub calls: u64,
    /// How often each refusal was given.
    refusals: BTreeMap<u32, u64>,
    /// The pairs seen, with their recognisers.
    pairs: BTreeSet<(u32, u32)>,
}

impl Tally {
    pub fn count(&mut self, recogniser: u32, answer: u32) {
        self.calls += 1;
        if answer > REFUSED {
            *self.refusals.entry(answer - REFUSED).or_default() += 1;
        } else {
            self.pairs.insert((recogniser, answer));
        }
    }
}

impl program::Tally for Tally {
    fn add(&mut self, more: &Tally) {
        self.calls += more.calls;
        for (refusal, count) in &more.refusals {
            *self.refusals.entry(*refusal).or_default() += count;
        }
        self.pairs.extend(&more.pairs);
    }

    fn print(&self) {
        for (refusal, count) in &self.refusals {
            println!("refusal {refusal}: {count}");
        }
        let possible: usize = (0..RECOGNISERS).map(|k| possible(k).len()).sum();
        println!("{} of {possible} kinds of pairs seen", self.pairs.len());
    }
}
