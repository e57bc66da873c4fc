//! Minute bars a second that a layer takes in and labels as terms of 5, 15 and 60 minutes: `jcc_terms`
//! and the plain layer over the plain box, in one run, in turn. Both must give the same rows.

mod layers;

use inputs::rng::Rng;
use inputs::walk;
use jcc_types::{Bar, ROW_BYTES};
use layers::{LAYERS, Work};
use measure::{Rates, SEED, column_titles, columns, digest};
use std::process::ExitCode;
use terms_model::{DAY, MINUTES};

const ROUNDS: usize = 7;

const BARS: usize = 1_000_000;

/// The windows of a trading day, each minute of which has a bar.
const HOURS: [u32; 4] = [570, 690, 780, 900];

/// The bars of a run, and what is printed.
const SIZES: [(usize, &str); 2] = [(4096, "4,096 bars"), (1, "1 bar")];

fn main() -> ExitCode {
    program::main("bench", measure)
}

fn measure() -> Result<(), String> {
    let bars = walk::market(&mut Rng::stream(SEED, 0, 0), BARS);
    let prices: Vec<f64> = bars.iter().flat_map(Bar::prices).collect();
    let stamps = stamps(BARS);
    let mut all: Vec<Measured> = MINUTES.iter().map(|m| Measured::new(*m)).collect();
    let mut sheet = vec![0; (BARS + 1) * ROW_BYTES];
    for round in 0..ROUNDS {
        for measured in &mut all {
            measured.round(round, &stamps, &prices, &mut sheet)?;
        }
    }
    print(&all);
    Ok(())
}

/// So many minutes of the hours, from the first on.
fn stamps(count: usize) -> Vec<u32> {
    let windows = HOURS.as_chunks().0;
    let is_open = |minute: &u32| {
        let has = |[from, to]: &[u32; 2]| (*from..*to).contains(&(minute % DAY));
        windows.iter().any(has)
    };
    (0..).filter(is_open).take(count).collect()
}

/// The rates of both layers for terms of one length, and what they give.
struct Measured {
    minutes: u32,
    rates: [[Rates; LAYERS.len()]; SIZES.len()],
    /// The term bars, and the digest of their rows.
    given: Option<(usize, u64)>,
}

impl Measured {
    fn new(minutes: u32) -> Measured {
        Measured {
            minutes,
            rates: Default::default(),
            given: None,
        }
    }

    /// Each layer goes first in every other round.
    fn round(
        &mut self,
        round: usize,
        stamps: &[u32],
        prices: &[f64],
        sheet: &mut [u8],
    ) -> Result<(), String> {
        for ((size, _), rates) in SIZES.iter().zip(&mut self.rates) {
            let mut work = Work::new(self.minutes, &HOURS, stamps, prices, *size);
            for turn in 0..LAYERS.len() {
                let i = (round + turn) % LAYERS.len();
                sheet.fill(u8::MAX);
                rates[i].time(BARS, || work.make(&LAYERS[i], sheet));
                let rows = work.rows()?;
                let given = (rows, digest(&sheet[..rows * ROW_BYTES]));
                if *self.given.get_or_insert(given) != given {
                    let (layer, minutes) = (LAYERS[i].name, self.minutes);
                    return Err(format!(
                        "{layer}, {minutes} minutes: other rows than before"
                    ));
                }
            }
        }
        Ok(())
    }

    fn print(&self) {
        for ((_, size), [plain, ours]) in SIZES.iter().zip(&self.rates) {
            let title = format!("{} minutes, runs of {size}", self.minutes);
            println!("{title:32}{}", columns(plain, ours));
        }
    }

    fn print_given(&self) {
        let (rows, digest) = self.given.expect("there was a round");
        let minutes = self.minutes;
        println!(
            "{minutes} minutes: {rows} term bars, digest of the rows, the same for all: {digest:016x}"
        );
    }
}

fn print(all: &[Measured]) {
    println!("{BARS} minute bars, hours {HOURS:?}, {ROUNDS} rounds; million minute bars a second");
    let [plain, ours] = LAYERS.map(|layer| layer.name);
    println!("{:32}{plain:>16}{ours:>16}{:>16}", "", "ratio");
    println!("{:32}{}", "", column_titles());
    all.iter().for_each(Measured::print);
    all.iter().for_each(Measured::print_given);
}
