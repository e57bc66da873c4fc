//! Compares the programs labels and tally with their model, byte for byte, on good and bad inputs, and
//! with each other. Small inputs are judged by the repository's own functions too. Stops at the first
//! difference.

mod agree;
mod bad;
mod check;
mod endings;
mod good;
mod options;
mod process;
mod programs;
mod tally;
mod work;

use check::Check;
use options::Options;
use program::Tally;
use std::process::ExitCode;

fn main() -> ExitCode {
    program::main("labels", || compare(&Options::from_arguments()?))
}

fn compare(options: &Options) -> Result<(), String> {
    println!("seed {}, {} random inputs", options.seed, options.inputs);
    let (tally, seconds) = program::run(
        &work::all(options),
        || Check::new(&options.programs),
        |part, check| part.run(options.seed, check),
        |check| check.tally,
    )
    .map_err(|difference| difference.report(&options.folder))?;
    println!("{seconds:.0} seconds");
    tally.print();
    match tally.unseen().as_slice() {
        [] => Ok(()),
        kinds => Err(format!("never seen: {}", kinds.join("; "))),
    }
}
