//! What the programs of the comparison and of the benchmark share: their end, their options, and the
//! parts of a run.

mod options;
mod parts;

pub use options::{Histories, number, numbers};
pub use parts::{Difference, Tally, add_counts, compare, run};

use std::fmt::Display;
use std::process::ExitCode;

/// Runs a program; an error is printed behind its name.
pub fn main<E: Display>(name: &str, run: impl FnOnce() -> Result<(), E>) -> ExitCode {
    match run() {
        Ok(()) => ExitCode::SUCCESS,
        Err(message) => {
            eprintln!("{name}: {message}");
            ExitCode::FAILURE
        }
    }
}
