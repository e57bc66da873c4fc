//! Prints lines of a random walk, for the benchmark of the labels program.
//!
//!     walk_lines LINES SEED

use inputs::rng::Rng;
use inputs::walk::Walk;
use std::io::{self, BufWriter, Write};
use std::process::ExitCode;

fn main() -> ExitCode {
    let numbers: Vec<u64> = std::env::args().skip(1).flat_map(|a| a.parse()).collect();
    let [count, seed] = numbers[..] else {
        eprintln!("walk_lines LINES SEED");
        return ExitCode::from(2);
    };
    program::main("walk_lines", || print(count, seed))
}

fn print(count: u64, seed: u64) -> io::Result<()> {
    let mut rng = Rng::stream(seed, 0, 0);
    let mut walk = Walk::market();
    let mut output = BufWriter::new(io::stdout().lock());
    for _ in 0..count {
        let [open, close, high, low] = walk.bar(&mut rng).prices();
        writeln!(output, "{open:.2},{close:.2},{high:.2},{low:.2}")?;
    }
    output.flush()
}
