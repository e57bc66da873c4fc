//! The lines of an input, as bytes.

use std::io::{self, BufRead, Read};

/// The most bytes of a line.
pub const MOST: usize = 80;

/// What comes next in an input.
pub enum Next<'a> {
    Line(&'a [u8]),
    /// A line longer than `MOST`. The rest of it is not read.
    TooLong,
    End,
}

/// Reads the lines of an input one by one. Never more than `MOST` bytes and a line feed are held.
pub struct Lines<R> {
    input: R,
    held: Vec<u8>,
}

impl<R: BufRead> Lines<R> {
    pub fn new(input: R) -> Lines<R> {
        Lines {
            input,
            held: Vec::with_capacity(MOST + 1),
        }
    }

    pub fn read(&mut self) -> io::Result<Next<'_>> {
        self.held.clear();
        let mut bounded = self.input.by_ref().take(MOST as u64 + 1);
        bounded.read_until(b'\n', &mut self.held)?;
        Ok(match self.held.as_slice() {
            [] => Next::End,
            [line @ .., b'\n'] => Next::Line(line),
            line if line.len() > MOST => Next::TooLong,
            line => Next::Line(line),
        })
    }
}

#[cfg(test)]
mod tests {
    use super::*;

    /// The lines' lengths; none for a line that is too long.
    fn lengths(input: &[u8]) -> Vec<Option<usize>> {
        let mut lines = Lines::new(input);
        let mut lengths = Vec::new();
        loop {
            match lines.read().expect("bytes can be read") {
                Next::Line(line) => lengths.push(Some(line.len())),
                Next::TooLong => {
                    lengths.push(None);
                    return lengths;
                }
                Next::End => return lengths,
            }
        }
    }

    #[test]
    fn ends_of_lines() {
        assert_eq!(lengths(b""), []);
        assert_eq!(lengths(b"\n"), [Some(0)]);
        assert_eq!(lengths(b"\n\n"), [Some(0), Some(0)]);
        assert_eq!(lengths(b"ab"), [Some(2)]);
        assert_eq!(lengths(b"ab\n"), [Some(2)]);
        assert_eq!(lengths(b"ab\nc"), [Some(2), Some(1)]);
        assert_eq!(lengths(b"ab\r\n"), [Some(3)]);
    }

    #[test]
    fn long_lines() {
        for (count, length) in [(79, Some(79)), (80, Some(80)), (81, None), (10_000, None)] {
            let mut input = vec![b'1'; count];
            assert_eq!(lengths(&input), [length]);
            input.push(b'\n');
            assert_eq!(lengths(&input), [length]);
        }
    }
}
