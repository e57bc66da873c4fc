//! Compares the export over bar records, `jcc_label_bars`, with the one over bytes, `jcc_label`.
//! Stops at the first difference.

mod judge;
mod options;
mod tally;
mod work;

use judge::Judge;
use options::Options;
use std::process::ExitCode;
use work::Work;

fn main() -> ExitCode {
    program::main("records", || compare(&Options::from_arguments()?))
}

fn compare(options: &Options) -> Result<(), String> {
    println!("seed {}, {} calls", options.seed, options.calls);
    let parts = work::all(options);
    let tally = program::compare(&parts, Judge::new, Work::run, |judge| judge.tally)?;
    println!("records: {} calls, 0 differences", tally.calls);
    Ok(())
}
