//! The programs labels and tally in plain Rust, written from documents 01 and 02 alone: lines of
//! prices in, labels or their counts out. The labels come from the plain port's box or from the
//! repository's own functions.

mod done;
pub mod judge;
pub mod line;
pub mod price;
pub mod printer;
pub mod refusal;

pub use done::Done;

use judge::Judge;
use line::{Lines, Next};
use printer::Printer;
use refusal::Refusal;
use std::io::{self, BufRead};

/// Labels the bars of an input, a line each, until it ends or a line is refused. An input that
/// cannot be read further is an error, as is an output that cannot be written.
pub fn run(
    input: impl BufRead,
    judge: &mut impl Judge,
    printer: &mut impl Printer,
) -> io::Result<Done> {
    let mut lines = Lines::new(input);
    let mut done = Done::default();
    loop {
        let bar = match lines.read()? {
            Next::Line(line) => price::bar(line),
            Next::TooLong => Err(Refusal::SHAPE),
            Next::End => break,
        };
        match bar.and_then(|bar| judge.next(&bar).map_err(Refusal::of_feed)) {
            Ok(row) => printer.row(done.bars + 1, &row)?,
            Err(refusal) => {
                done.refusal = Some(refusal);
                break;
            }
        }
        done.bars += 1;
    }
    printer.end(&done)?;
    Ok(done)
}

#[cfg(test)]
mod tests {
    use super::*;
    use judge::{Port, Repository};
    use printer::{Counts, Labels};

    /// What the labels and the tally program print.
    fn printed_by(input: &str, judge: &mut impl Judge) -> [String; 2] {
        let mut printer = (Labels::new(Vec::new()), Counts::new(Vec::new()));
        run(input.as_bytes(), judge, &mut printer).expect("bytes can be read and written");
        let (labels, counts) = printer;
        [labels.output, counts.output]
            .map(|output| String::from_utf8(output).expect("labels are text"))
    }

    fn both(input: &str) -> [String; 2] {
        let printed = printed_by(input, &mut Port::new());
        assert_eq!(printed, printed_by(input, &mut Repository::new()));
        printed
    }

    fn printed(input: &str) -> String {
        let [labels, tally] = both(input);
        if let Some(at) = labels.find("refused") {
            assert_eq!(tally, labels[at..]);
        }
        labels
    }

    #[test]
    fn counts() {
        let [_, tally] = both("5,6,7,4\n5,6,8,3\n");
        let others = |k: usize| format!("{k},其他,2\n");
        let mut expected = others(0) + "1,其他,1\n1,满足,1\n";
        (2..18).for_each(|k| expected += &others(k));
        assert_eq!(tally, expected);
        assert_eq!(both(""), ["", ""]);
    }

    #[test]
    fn the_example_of_01() {
        assert_eq!(printed("5,6,7,4\n5,6,8,3\n"), "2,1,满足,其他\n");
        assert_eq!(printed("5,6,7,4\n5,6,8,3"), "2,1,满足,其他\n");
        assert_eq!(
            printed("5,6,7,4\n5,6,8,3\n\n"),
            "2,1,满足,其他\nrefused,3,8\n"
        );
    }

    #[test]
    fn no_lines() {
        assert_eq!(printed(""), "");
        assert_eq!(printed("\n"), "refused,1,8\n");
    }

    #[test]
    fn refused_lines() {
        for (line, refusal) in [
            ("", "8"),
            ("5,6,7", "8"),
            ("5,6,7,4,", "8"),
            ("O,O,O,O,O", "8"),
            (",,,", "9,1"),
            ("5,O,7,4", "9,2"),
            ("O,O,O,O", "9,1"),
            ("5,6, 7,+4", "9,3"),
            ("5,6,7,4\r", "9,4"),
        ] {
            let input = format!("5,6,7,4\n{line}\n5,6,8,3\n");
            assert_eq!(
                printed(&input),
                format!("refused,2,{refusal}\n"),
                "{line:?}"
            );
        }
        assert_eq!(printed("5,6,7,4\n5,6,7,O"), "refused,2,9,4\n");
    }

    #[test]
    fn eighty_bytes() {
        for (bytes, refusals) in [(80, ["9,1", "9,2", "9,3", "9,4"]), (81, ["8"; 4])] {
            for (field, refusal) in refusals.into_iter().enumerate() {
                let mut fields = ["5", "6", "7", "4"].map(str::to_string);
                fields[field] = "0".repeat(bytes - 6);
                let line = fields.join(",");
                assert_eq!(line.len(), bytes);
                assert_eq!(printed(&line), format!("refused,1,{refusal}\n"));
            }
        }
        assert_eq!(printed(&"1".repeat(1_000_000)), "refused,1,8\n");
    }

    #[test]
    fn nothing_after_a_refusal() {
        assert_eq!(printed("5,6,7,4\nx\n5,6,8,3\n"), "refused,2,8\n");
    }
}
