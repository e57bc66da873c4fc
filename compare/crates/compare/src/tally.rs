//! What was called and what came out.

use crate::families;
use inputs::pairs::{PLACES, place, possible};
use inputs::tenths;
use jcc_types::{LABELS, NAMES, RECOGNISERS};
use oracle::corner::Corner;
use program::add_counts;

/// One more than the recognisers: refused numbers are counted together.
const COLUMNS: usize = RECOGNISERS + 1;

pub struct Tally {
    /// Calls by family and recogniser.
    calls: Vec<[u64; COLUMNS]>,
    /// Of these, compared with the repository.
    repository: [u64; RECOGNISERS],
    /// Calls in each corner, and how many of them the repository answers otherwise than 01.
    corners: [[u64; 2]; Corner::ALL.len()],
    /// Calls of 13 and 14 between multiples of ten, by recogniser.
    between: [u64; RECOGNISERS],
    /// The repository's pairs by recogniser, at their places.
    pairs: Vec<Vec<u64>>,
}

impl Default for Tally {
    fn default() -> Tally {
        Tally {
            calls: vec![[0; COLUMNS]; families::names().count()],
            repository: [0; RECOGNISERS],
            corners: [[0; 2]; Corner::ALL.len()],
            between: [0; RECOGNISERS],
            pairs: vec![vec![0; PLACES]; RECOGNISERS],
        }
    }
}

impl Tally {
    /// A call that the repository judged.
    pub fn count(&mut self, family: usize, k: usize, pair: u32) {
        self.count_only(family, k);
        self.repository[k] += 1;
        self.pairs[k][place(pair)] += 1;
    }

    pub fn count_corner(&mut self, family: usize, k: usize, corner: Corner, differs: bool) {
        self.count_only(family, k);
        self.corners[corner as usize][0] += 1;
        self.corners[corner as usize][1] += u64::from(differs);
    }

    /// A call with a threshold that is no multiple of ten: the plain port alone judged it.
    pub fn count_between(&mut self, family: usize, k: usize) {
        self.count_only(family, k);
        self.between[k] += 1;
    }

    /// A call that something else judged.
    pub fn count_only(&mut self, family: usize, k: usize) {
        self.calls[family][k.min(RECOGNISERS)] += 1;
    }

    pub fn calls(&self) -> u64 {
        self.calls.as_flattened().iter().sum()
    }

    /// An error unless the repository judged enough calls and every possible pair was seen.
    pub fn complete(&self, calls: u64) -> Result<(), String> {
        for k in 0..RECOGNISERS {
            if self.repository[k] < calls {
                return Err(format!("recogniser {k}: only {} calls", self.repository[k]));
            }
            if tenths::RECOGNISERS.contains(&k) && self.between[k] == 0 {
                return Err(format!("recogniser {k}: no call between multiples of ten"));
            }
            for pair in possible(k) {
                if self.pairs[k][place(pair.number())] == 0 {
                    return Err(format!("recogniser {k} never gave {pair:?}"));
                }
            }
            let seen = self.pairs[k].iter().filter(|n| **n > 0).count();
            if seen != possible(k).len() {
                return Err(format!("recogniser {k} gave a pair that it should not"));
            }
        }
        Ok(())
    }

    fn print_calls(&self) {
        println!("\nCalls by recogniser and family; the last column: judged by the repository");
        print!("{:20}", "");
        for name in families::names() {
            print!("{name:>11}");
        }
        println!("{:>12}", "repository");
        for (k, name) in NAMES.iter().enumerate() {
            print!("{k:>2} {name:17}");
            for family in &self.calls {
                print!("{:>11}", family[k]);
            }
            println!("{:>12}", self.repository[k]);
        }
        print!("{:20}", "above 17");
        for family in &self.calls {
            print!("{:>11}", family[RECOGNISERS]);
        }
        println!();
    }

    fn print_corners(&self) {
        println!("\nCorners, judged by the plain port alone");
        for (corner, [calls, differ]) in Corner::ALL.iter().zip(self.corners) {
            println!("{corner:?}: {calls} calls, the repository differs in {differ}");
        }
    }

    fn print_between(&self) {
        println!("\nThresholds between multiples of ten, judged by the plain port alone");
        for (k, calls) in self.between.iter().enumerate().filter(|(_, n)| **n > 0) {
            println!("{k} {}: {calls} calls", NAMES[k]);
        }
    }

    fn print_pairs(&self) {
        println!("\nPairs that the repository gave");
        for (k, name) in NAMES.iter().enumerate() {
            println!("{k} {name}");
            for (at, count) in self.pairs[k].iter().enumerate().filter(|(_, n)| **n > 0) {
                let (v1, v2) = (LABELS[at / LABELS.len()], LABELS[at % LABELS.len()]);
                println!("{count:>12}  {v1}/{v2}");
            }
        }
        println!();
    }
}

impl program::Tally for Tally {
    fn add(&mut self, other: &Tally) {
        add_counts(self.calls.as_flattened_mut(), other.calls.as_flattened());
        add_counts(&mut self.repository, &other.repository);
        add_counts(
            self.corners.as_flattened_mut(),
            other.corners.as_flattened(),
        );
        add_counts(&mut self.between, &other.between);
        for (mine, more) in self.pairs.iter_mut().zip(&other.pairs) {
            add_counts(mine, more);
        }
    }

    fn print(&self) {
        self.print_calls();
        self.print_corners();
        self.print_between();
        self.print_pairs();
    }
}
