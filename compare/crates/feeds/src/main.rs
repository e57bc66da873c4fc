//! Compares the exports `jcc_feed`, `jcc_tally` and `jcc_look` with the repository's own functions, and
//! all with the plain box, which judges alone where the repository has no say; and `jcc_look_ordinal`
//! with the plain box and the number of bars. Stops at the first difference.

mod counts;
mod judge;
mod ordinal;
mod refused;
mod sheet;
mod tally;
mod text;
mod trial;
mod work;

use judge::Judge;
use program::Histories;
use std::process::ExitCode;
use work::Work;

fn main() -> ExitCode {
    program::main("feeds", || compare(&Histories::from_arguments("feeds")?))
}

fn compare(options: &Histories) -> Result<(), String> {
    println!("seed {}, {} histories", options.seed, options.histories);
    let parts = work::all(options);
    let tally = program::compare(&parts, Judge::new, Work::run, |judge| judge.tally)?;
    tally.check_ordinals()?;
    println!(
        "feeds: {} rows, {} tallies, {} looks, {} ordinals, 0 differences",
        tally.rows,
        tally.tallies,
        tally.looks,
        tally.ordinals()
    );
    Ok(())
}
