//! Reads lines of prices and prints the labels of each bar, as the labels program does, or how often
//! they came, as the tally program does.
//!
//!     labels_model [--tally] [--repository]
//!
//! With the last flag the labels are those of the repository's own functions.

use labels_model::judge::{Judge, Port, Repository};
use labels_model::printer::{Counts, Labels};
use labels_model::{Done, run};
use std::io::{self, BufReader, BufWriter};
use std::process::ExitCode;

/// The bytes of a buffer.
const BUFFER: usize = 1 << 16;

fn main() -> ExitCode {
    let arguments: Vec<String> = std::env::args().skip(1).collect();
    let arguments: Vec<&str> = arguments.iter().map(String::as_str).collect();
    let (is_tally, is_repository) = match arguments[..] {
        [] => (false, false),
        ["--tally"] => (true, false),
        ["--repository"] => (false, true),
        ["--tally", "--repository"] => (true, true),
        _ => {
            eprintln!("labels_model [--tally] [--repository]");
            return ExitCode::from(2);
        }
    };
    // 01 says nothing of an input or an output that fails: the run ends there, without a word.
    let _ = if is_repository {
        print(is_tally, &mut Repository::new())
    } else {
        print(is_tally, &mut Port::new())
    };
    ExitCode::SUCCESS
}

fn print(is_tally: bool, judge: &mut impl Judge) -> io::Result<Done> {
    let input = BufReader::with_capacity(BUFFER, io::stdin().lock());
    let output = BufWriter::with_capacity(BUFFER, io::stdout().lock());
    if is_tally {
        run(input, judge, &mut Counts::new(output))
    } else {
        run(input, judge, &mut Labels::new(output))
    }
}
