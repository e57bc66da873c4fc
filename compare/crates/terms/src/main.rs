//! Compares the export `jcc_terms` and a plain layer with what the text says of the whole list of
//! calls, and the rows with one feed of the ended term bars, by `jcc_feed` and by the plain box. Stops
//! at the first difference.

mod calls;
mod examples;
mod hours;
mod judge;
mod limit;
mod lists;
mod makings;
mod noted;
mod recut;
mod seen;
mod stamps;
mod told;
mod trial;
mod work;

use judge::Judge;
use program::Histories;
use std::process::ExitCode;
use work::Work;

fn main() -> ExitCode {
    program::main("terms", || compare(&Histories::from_arguments("terms")?))
}

fn compare(options: &Histories) -> Result<(), String> {
    println!("seed {}, {} histories", options.seed, options.histories);
    let parts = work::all(options);
    let seen = program::compare(&parts, Judge::new, Work::run, |judge| judge.seen)?;
    seen.check()?;
    println!("{}, 0 differences", seen.summary());
    Ok(())
}
