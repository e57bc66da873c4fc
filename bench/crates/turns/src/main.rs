//! Two versions of `jcc_feed` in one program and one run, in turn, over two walks.
//!
//!     turns                           prints how many bars a second each of them labels
//!     turns VERSION WALK SIZE BARS    feeds one of them a walk's first bars, to count instructions

mod versions;
mod walks;

use jcc_types::{MAX_BARS, ROW_BYTES};
use measure::{Rates, column_titles, columns, digest, feed};
use std::process::ExitCode;
use versions::VERSIONS;
use walks::{Labels, WALKS, Walk};

const ROUNDS: usize = 11;

/// The bars of a feed, and what is printed.
const SIZES: [(usize, &str); 3] = [(4096, "4,096 bars"), (64, "64 bars"), (1, "1 bar")];

fn main() -> ExitCode {
    let arguments: Vec<String> = std::env::args().skip(1).collect();
    program::main("turns", || match &arguments[..] {
        [] => compare(),
        [version, walk, size, bars] => feed_once(version, walk, size, bars),
        _ => Err(String::from("no arguments, or VERSION WALK SIZE BARS")),
    })
}

fn feed_once(version: &str, walk: &str, size: &str, bars: &str) -> Result<(), String> {
    let number = |text: &str| text.parse().map_err(|_| format!("no number: {text}"));
    let version = VERSIONS.iter().find(|v| v.name == version);
    let version = version.ok_or("VERSION is before or after")?;
    let walk = WALKS.iter().find(|w| w.name == walk);
    let walk = walk.ok_or("WALK is plain or middles")?;
    let bars = number(bars)?;
    let mut sheet = vec![0; bars * ROW_BYTES];
    feed(version.feed, number(size)?, &walk.prices(bars), &mut sheet);
    Ok(())
}

fn compare() -> Result<(), String> {
    let mut sheet = vec![0; MAX_BARS * ROW_BYTES];
    let mut all: Vec<Measured> = WALKS
        .iter()
        .map(|walk| Measured::new(walk, &mut sheet))
        .collect();
    for round in 0..ROUNDS {
        for measured in &mut all {
            measured.round(round, &mut sheet)?;
        }
    }
    print(&all);
    Ok(())
}

/// A walk, and the rates of both versions for each size of feeds.
struct Measured {
    walk: &'static Walk,
    prices: Vec<f64>,
    labels: Labels,
    rates: [[Rates; VERSIONS.len()]; SIZES.len()],
}

impl Measured {
    fn new(walk: &'static Walk, sheet: &mut [u8]) -> Measured {
        let prices = walk.prices(MAX_BARS);
        Measured {
            walk,
            labels: Labels::of(&prices, sheet),
            prices,
            rates: Default::default(),
        }
    }

    /// Each version goes first in every other round.
    fn round(&mut self, round: usize, sheet: &mut [u8]) -> Result<(), String> {
        for ((size, _), rates) in SIZES.iter().zip(&mut self.rates) {
            for turn in 0..VERSIONS.len() {
                let i = (round + turn) % VERSIONS.len();
                let run = |s: &mut [u8]| feed(VERSIONS[i].feed, *size, &self.prices, s);
                rates[i].round(1, sheet, run);
                if digest(sheet) != self.labels.digest {
                    let [version, walk] = [VERSIONS[i].name, self.walk.title];
                    return Err(format!("{version}, {walk}: not the plain port's labels"));
                }
            }
        }
        Ok(())
    }

    fn print(&self) {
        for ((_, size), [before, after]) in SIZES.iter().zip(&self.rates) {
            let title = format!("{}, feeds of {size}", self.walk.title);
            println!("{title:36}{}", columns(before, after));
        }
    }

    fn print_labels(&self) {
        let [methods, towers] = self.labels.windows;
        println!(
            "{}, digest of the labels, the same for all: {:016x}",
            self.walk.title, self.labels.digest
        );
        println!("  bars at which 4 gives 5K to 8K: {:?}", &methods[..4]);
        println!("  bars at which 17 gives 5K to 9K: {towers:?}");
    }
}

fn print(all: &[Measured]) {
    println!("18 recognisers a bar, {MAX_BARS} bars, {ROUNDS} rounds; million bars a second");
    let [before, after, ratio] = ["before", "after", "after/before"];
    println!("{:36}{before:>16}{after:>16}{ratio:>16}", "");
    println!("{:36}{}", "", column_titles());
    for measured in all {
        measured.print();
    }
    for measured in all {
        measured.print_labels();
    }
}
