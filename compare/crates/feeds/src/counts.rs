//! The counts that `jcc_tally` is lent.

use jcc_types::{LABELS, NAMES, TALLY_COUNTS};
use lent::Lent;
use port::Tally;

pub struct Counts {
    before: Vec<u32>,
    lent: Lent<u32>,
}

impl Counts {
    pub fn new(before: &[u32]) -> Counts {
        Counts {
            before: before.to_vec(),
            lent: Lent::with(before),
        }
    }

    pub fn numbers(&mut self) -> &mut [u32] {
        self.lent.elements()
    }

    /// An error unless they are those of the tally, as far as they go, and what stands past them is
    /// as it was.
    pub fn check(&self, tally: &Tally) -> Result<(), String> {
        let mut expected = self.before.clone();
        let counts = expected.iter_mut().zip(tally.numbers());
        counts.for_each(|(number, count)| *number = *count);
        self.lent.check(&expected, |at, written| {
            let (got, wanted) = (written[at], expected[at]);
            format!("{}: {got} instead of {wanted}", cell(at))
        })
    }

    /// An error unless each recogniser's counts add up to the bars; if some are missing there is no
    /// telling.
    pub fn check_sums(&mut self, bars: usize) -> Result<(), String> {
        let numbers = self.numbers();
        if numbers.len() < TALLY_COUNTS || Tally::of_numbers(numbers).adds_up_to(bars) {
            return Ok(());
        }
        Err(format!("the counts do not add up to {bars} bars"))
    }
}

/// A count's place in words.
fn cell(at: usize) -> String {
    let (recogniser, code) = (at / LABELS.len(), at % LABELS.len());
    match NAMES.get(recogniser) {
        Some(name) => format!("count {recogniser} ({name}), {}", LABELS[code]),
        None => format!("number {at}, past the counts"),
    }
}
