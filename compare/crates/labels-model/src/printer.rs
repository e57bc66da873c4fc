//! What the two programs print.

use crate::done::Done;
use crate::judge::Row;
use jcc_types::LABELS;
use port::Tally;
use std::io::{self, Write};

pub trait Printer {
    /// A bar was labelled.
    fn row(&mut self, ordinal: u64, row: &Row) -> io::Result<()>;

    /// The input has ended, or a line was refused.
    fn end(&mut self, done: &Done) -> io::Result<()>;
}

/// Both at once.
impl<A: Printer, B: Printer> Printer for (A, B) {
    fn row(&mut self, ordinal: u64, row: &Row) -> io::Result<()> {
        self.0.row(ordinal, row)?;
        self.1.row(ordinal, row)
    }

    fn end(&mut self, done: &Done) -> io::Result<()> {
        self.0.end(done)?;
        self.1.end(done)
    }
}

/// The labels program: a line for each recogniser whose v1 is not 其他, as the bars come.
pub struct Labels<W> {
    pub output: W,
    /// The labels printed.
    pub rows: u64,
}

impl<W: Write> Labels<W> {
    pub fn new(output: W) -> Labels<W> {
        Labels { output, rows: 0 }
    }
}

impl<W: Write> Printer for Labels<W> {
    fn row(&mut self, ordinal: u64, row: &Row) -> io::Result<()> {
        for (recogniser, [v1, v2]) in row.as_chunks::<2>().0.iter().enumerate() {
            if *v1 != 0 {
                let [v1, v2] = [v1, v2].map(|code| LABELS[usize::from(*code)]);
                writeln!(self.output, "{ordinal},{recogniser},{v1},{v2}")?;
                self.rows += 1;
            }
        }
        Ok(())
    }

    fn end(&mut self, done: &Done) -> io::Result<()> {
        print_refusal(&mut self.output, done)?;
        self.output.flush()
    }
}

/// The tally program: a line for each count that is not zero, at the input's end; at a refused line
/// none.
pub struct Counts<W> {
    pub output: W,
    pub tally: Tally,
}

impl<W: Write> Counts<W> {
    pub fn new(output: W) -> Counts<W> {
        Counts {
            output,
            tally: Tally::new(),
        }
    }
}

impl<W: Write> Printer for Counts<W> {
    fn row(&mut self, _: u64, row: &Row) -> io::Result<()> {
        self.tally.count(row);
        Ok(())
    }

    fn end(&mut self, done: &Done) -> io::Result<()> {
        if done.refusal.is_some() {
            print_refusal(&mut self.output, done)?;
        } else {
            for (recogniser, code, count) in self.tally.cells() {
                writeln!(self.output, "{recogniser},{},{count}", LABELS[code])?;
            }
        }
        self.output.flush()
    }
}

/// The refused line comes after those of the bars.
fn print_refusal(output: &mut impl Write, done: &Done) -> io::Result<()> {
    match done.refusal {
        Some(refusal) => writeln!(output, "refused,{},{refusal}", done.bars + 1),
        None => Ok(()),
    }
}
