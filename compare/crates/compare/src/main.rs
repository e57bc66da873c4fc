//! Compares the export `jcc_label` with the repository's own functions, and both with the plain
//! port, which judges alone where the repository has no say. Stops at the first difference.

mod families;
mod judge;
mod options;
mod replay;
mod tally;
mod work;

use inputs::grids::GRIDS;
use inputs::middles::{self, Window};
use judge::Judge;
use options::Options;
use std::process::ExitCode;
use work::Work;

fn main() -> ExitCode {
    program::main("compare", || {
        let options = Options::from_arguments()?;
        match &options.list {
            Some(folder) => replay::run(folder),
            None => compare(&options),
        }
    })
}

fn compare(options: &Options) -> Result<(), String> {
    println!(
        "seed {}, {} calls a recogniser",
        options.seed, options.calls
    );
    for grid in &GRIDS {
        println!("exhaustive: {}, {} histories", grid.name, grid.size());
    }
    let windows = middles::windows();
    let histories: usize = windows.iter().map(Window::histories).sum();
    println!(
        "exhaustive: middles of {} windows, {histories} histories",
        windows.len()
    );
    let parts = work::all(options);
    let tally = program::compare(&parts, Judge::new, Work::run, |judge| judge.tally)?;
    tally.complete(options.calls)?;
    println!("compare: {} calls, 0 differences", tally.calls());
    Ok(())
}
