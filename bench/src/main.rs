//! Bars per second for labelling each bar of a random walk at offset 1 with all eighteen recognisers
//! and the standard set. One run, one walk, one driver for all rows; all rows must give the same
//! labels for the same bars.

mod rows;

use inputs::rng::Rng;
use inputs::walk;
use jcc_types::ROW_BYTES;
use measure::{Rates, SEED, digest, ratio};
use rows::{CALLS, FEEDS, FEW, Row, Walked};
use std::process::ExitCode;

const ROUNDS: usize = 5;

/// What the count of labels should cost less than, as a part of a feed's time.
const FIFTH: f64 = 0.2;

/// After so many bars the labels of all rows that have as many are compared.
const MARKS: [usize; 3] = [FEW, CALLS, FEEDS];

fn main() -> ExitCode {
    program::main("bench", run)
}

fn run() -> Result<(), String> {
    let mut rng = Rng::stream(SEED, 0, 0);
    let walked = Walked::new(walk::market(&mut rng, FEEDS));
    let mut rows = rows::all(&walked);
    let measured = measure(&mut rows)?;
    print(&rows, &measured);
    Ok(())
}

/// What the rounds of all rows gave.
struct Measured {
    rates: Vec<Rates>,
    /// The digest of the labels at each mark.
    digests: [Option<u64>; MARKS.len()],
}

/// The rows take turns, so that what else the machine does falls on all of them.
fn measure(rows: &mut [Row]) -> Result<Measured, String> {
    let mut measured = Measured {
        rates: vec![Rates::default(); rows.len()],
        digests: [None; MARKS.len()],
    };
    let mut sheet = vec![0; FEEDS * ROW_BYTES];
    for _ in 0..ROUNDS {
        for (row, rates) in rows.iter_mut().zip(&mut measured.rates) {
            let sheet = &mut sheet[..row.bars * ROW_BYTES];
            rates.round(row.passes, sheet, &mut row.run);
            compare(row, sheet, &mut measured.digests)?;
        }
    }
    Ok(measured)
}

/// An error if the labels are not those of the rows before.
fn compare(row: &Row, sheet: &[u8], digests: &mut [Option<u64>]) -> Result<(), String> {
    for (mark, first) in MARKS.iter().zip(digests) {
        if *mark > row.bars {
            continue;
        }
        let labels = digest(&sheet[..mark * ROW_BYTES]);
        if *first.get_or_insert(labels) != labels {
            return Err(format!("{}: other labels than the rows before", row.name));
        }
    }
    Ok(())
}

fn print(rows: &[Row], measured: &Measured) {
    println!("18 recognisers a bar, {ROUNDS} rounds; million bars a second, and the ratio of the");
    println!("medians to the repository, to the last row of the plain port or box, and, with a");
    println!("tally, to the row without");
    println!(
        "{:32}{:>10}{:>8}{:>8}{:>12}{:>8}{:>10}",
        "", "bars", "best", "median", "repository", "port", "untallied"
    );
    let median = |i: usize| measured.rates[i].median();
    let mut port = None;
    for (i, row) in rows.iter().enumerate() {
        if row.is_port {
            port = Some(i);
        }
        let to_port = port.map_or(String::from("-"), |p| ratio(median(i), median(p)));
        let to_untallied = if row.is_tallied {
            ratio(median(i), median(i - 1))
        } else {
            String::from("-")
        };
        println!(
            "{:32}{:>10}{:>8.3}{:>8.3}{:>12}{:>8}{:>10}",
            row.name,
            row.bars,
            measured.rates[i].best(),
            median(i),
            ratio(median(i), median(0)),
            to_port,
            to_untallied,
        );
    }
    print_cost(rows, measured);
    for (mark, digest) in MARKS.iter().zip(measured.digests) {
        let digest = digest.expect("a row has as many bars");
        println!("digest of the first {mark} bars' labels, the same for all: {digest:016x}");
    }
}

/// How much longer the feeds of the first tallied row take than those without a tally.
fn print_cost(rows: &[Row], measured: &Measured) {
    let Some(i) = rows.iter().position(|row| row.is_tallied) else {
        return;
    };
    let [without, with] = [&measured.rates[i - 1], &measured.rates[i]];
    println!("{}: of the time without it the count costs", rows[i].name);
    for (by, cost) in [
        ("medians", without.median() / with.median() - 1.0),
        ("best rounds", without.best() / with.best() - 1.0),
    ] {
        let said = if cost < FIFTH {
            "less than a fifth"
        } else {
            "a fifth or more"
        };
        println!("  {said} by the {by}: {:.1} %", 100.0 * cost);
    }
}
