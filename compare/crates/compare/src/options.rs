//! The command line.

use program::number;
use std::path::PathBuf;

const USAGE: &str = "compare [--seed N] [--calls N] [--list FOLDER]";

pub struct Options {
    pub seed: u64,
    /// The least number of calls compared with the repository, for each recogniser.
    pub calls: u64,
    /// Replay the list in this folder instead.
    pub list: Option<PathBuf>,
}

impl Options {
    pub fn from_arguments() -> Result<Options, String> {
        let mut options = Options {
            seed: 1,
            calls: 10_000_000,
            list: None,
        };
        let mut arguments = std::env::args().skip(1);
        while let Some(name) = arguments.next() {
            let value = arguments.next().ok_or(USAGE)?;
            match name.as_str() {
                "--seed" => options.seed = number(&value, USAGE)?,
                "--calls" => options.calls = number(&value, USAGE)?,
                "--list" => options.list = Some(PathBuf::from(value)),
                _ => return Err(USAGE.to_string()),
            }
        }
        Ok(options)
    }
}
