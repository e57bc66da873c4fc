//! The command line.

const USAGE: &str = "records [--seed N] [--calls N]";

pub struct Options {
    pub seed: u64,
    /// The least number of random calls.
    pub calls: u64,
}

impl Options {
    pub fn from_arguments() -> Result<Options, String> {
        let arguments = std::env::args().skip(1);
        let known = [("--seed", 1), ("--calls", 2_000_000)];
        let [seed, calls] = program::numbers(arguments, known, USAGE)?;
        Ok(Options { seed, calls })
    }
}
