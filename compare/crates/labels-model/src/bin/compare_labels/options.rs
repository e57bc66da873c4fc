//! The command line.

use crate::programs::Programs;
use std::path::PathBuf;

const USAGE: &str = "compare_labels LABELS TALLY FOLDER [--seed N] [--inputs N]";

pub struct Options {
    pub programs: Programs,
    /// Where an input is saved at which one of them differs.
    pub folder: PathBuf,
    pub seed: u64,
    /// How many random inputs there are, beside those that are always the same.
    pub inputs: u64,
}

impl Options {
    pub fn from_arguments() -> Result<Options, String> {
        let mut arguments = std::env::args().skip(1);
        let mut path = || arguments.next().map(PathBuf::from).ok_or(USAGE);
        let programs = [path()?, path()?];
        let folder = path()?;
        let known = [("--seed", 1), ("--inputs", 4000)];
        let [seed, inputs] = program::numbers(arguments, known, USAGE)?;
        Ok(Options {
            programs,
            folder,
            seed,
            inputs,
        })
    }
}
