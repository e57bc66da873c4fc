//! The parts of a run.

use crate::check::{Check, Difference};
use crate::options::Options;
use crate::process::Way;
use crate::{bad, endings, good};
use inputs::rng::Rng;
use jcc_types::MAX_BARS;

/// The random inputs in a part.
const PART: u64 = 50;

/// Streams of random numbers.
const RANDOM: u64 = 0;
const FIXED: u64 = 1;

pub enum Work {
    /// As many lines as there may be, and one more; what stands behind them.
    Most(&'static str, Shape),
    Endings,
    /// Inputs that are always the same.
    Ends,
    BadLines,
    Lengths,
    Cuts,
    /// Counts and ordinals to which a digit is added.
    Digits,
    /// A good line with a byte changed or put in at a place.
    Bytes(usize),
    Random {
        part: u64,
        count: u64,
    },
}

/// The lines of a long input.
#[derive(Clone, Copy)]
pub enum Shape {
    Walk,
    Small,
}

/// A line that is good and not the last.
const LINE: &[u8] = b"5.5,-6,7,nan";

/// All parts of a run, the long ones last: most differences show on small inputs.
pub fn all(options: &Options) -> Vec<Work> {
    let mut parts = vec![
        Work::Ends,
        Work::BadLines,
        Work::Lengths,
        Work::Cuts,
        Work::Digits,
        Work::Endings,
    ];
    parts.extend((0..=LINE.len()).map(Work::Bytes));
    parts.extend((0..options.inputs.div_ceil(PART)).map(|part| Work::Random {
        part,
        count: PART.min(options.inputs - part * PART),
    }));
    parts.extend([
        Work::Most("", Shape::Walk),
        Work::Most("5,6,7,4", Shape::Walk),
        Work::Most("5,6,7,4\nbad\n", Shape::Small),
        Work::Most("5,6,7\n", Shape::Walk),
        Work::Most("5,O,7,4\n", Shape::Small),
        Work::Most("\n", Shape::Small),
    ]);
    parts
}

impl Work {
    pub fn run(&self, seed: u64, check: &mut Check) -> Result<(), Difference> {
        let mut rng = Rng::stream(seed, FIXED, 0);
        match *self {
            Work::Most(behind, shape) => most(check, &mut rng, behind, shape),
            Work::Endings => endings::all(check, &mut rng),
            Work::Ends => ends(check, &mut rng),
            Work::BadLines => bad_lines(check),
            Work::Lengths => lengths(check),
            Work::Cuts => cuts(check, &mut rng),
            Work::Digits => digits(check),
            Work::Bytes(place) => bytes(check, place),
            Work::Random { part, count } => {
                let mut rng = Rng::stream(seed, RANDOM, part);
                (0..count).try_for_each(|_| random(check, &mut rng))
            }
        }
    }
}

fn most(check: &mut Check, rng: &mut Rng, behind: &str, shape: Shape) -> Result<(), Difference> {
    let mut input = match shape {
        Shape::Walk => good::walk(rng, MAX_BARS),
        Shape::Small => good::small(rng, MAX_BARS),
    };
    input.extend_from_slice(behind.as_bytes());
    check.input(&input, &[Way::File])?;
    if behind.is_empty() {
        // Without the last line feed.
        input.pop();
        check.input(&input, &[Way::Pipe])?;
    }
    Ok(())
}

/// Where an input and a line end.
fn ends(check: &mut Check, rng: &mut Rng) -> Result<(), Difference> {
    let ways = [Way::Pipe, Way::File, Way::Chunks(vec![1])];
    for input in [
        "",
        "\n",
        "\n\n",
        "\r\n",
        "\r",
        "5,6,7,4",
        "5,6,7,4\n",
        "5,6,7,4\n\n",
        "5,6,7,4\n5,6,8,3",
        "5,6,7,4\n5,6,8,3\n",
        "5,6,7,4\n5,6,8,3\n\n",
        "\n5,6,7,4\n5,6,8,3\n",
        "5,6,7,4\n\n5,6,8,3\n",
        "5,6,7,4\r\n5,6,8,3\r\n",
        "5,6,7,4\r5,6,8,3\r",
        "5,6,7,4\n5,6,8,3\r",
        "\u{FEFF}5,6,7,4\n",
        "open,close,high,low\n5,6,7,4\n",
    ] {
        check.input(input.as_bytes(), &ways)?;
    }
    for _ in 0..4 {
        check.input(&good::every_form(rng), &[Way::Pipe, Way::Chunks(vec![17])])?;
    }
    let lines = good::walk(rng, 3000);
    check.input(&lines, &[Way::Chunks(vec![4096, 1, 4095, 511])])
}

/// Every bad line alone, between good ones, and last without a line feed.
fn bad_lines(check: &mut Check) -> Result<(), Difference> {
    for line in bad::lines() {
        for [before, after] in [
            ["", "\n"],
            ["5,6,7,4\n5,6,8,3\n", "\n5,6,9,2\n"],
            ["5,6,7,4\n", ""],
        ] {
            let input = [before.as_bytes(), &line, after.as_bytes()].concat();
            check.input(&input, &[Way::Pipe])?;
        }
    }
    Ok(())
}

/// Lines of every length around the limit, and very long ones, with and without an end.
fn lengths(check: &mut Check) -> Result<(), Difference> {
    let good = b"5,6,7,4\n5,6,8,3\n";
    for fill in 0..bad::FILLS {
        for length in (0..=90).chain([127, 128, 255, 256, 4095, 4096, 4097, 65_536, 1_000_000]) {
            let line = bad::line_of(length, fill);
            let long = [good, line.as_slice()].concat();
            let ended = [&long, b"\n5,6,7,4\n".as_slice()].concat();
            check.input(&ended, &[Way::Pipe])?;
            if length >= 69 {
                check.input(&long, &[Way::Pipe])?;
            }
        }
    }
    // The longest good line, and zeros that make one of its fields bad and then the line too long.
    let field = b"-123456789.654321".as_slice();
    for (place, zeros) in (0..4).flat_map(|place| (0..12).map(move |zeros| (place, zeros))) {
        let longer = [b"-", b"0".repeat(zeros).as_slice(), &field[1..]].concat();
        let mut fields = [field; 4];
        fields[place] = &longer;
        check.input(&fields.join(&b','), &[Way::Pipe, Way::Chunks(vec![40])])?;
    }
    // Four fields of which one is bad, around the limit.
    for (field, length) in (0..4).flat_map(|field| (76..=84).map(move |length| (field, length))) {
        for fill in *b"0 O" {
            let line = bad::four_fields(length, field, fill);
            let input = [good, line.as_slice(), b"\n5,6,7,4\n"].concat();
            check.input(&input, &[Way::Pipe, Way::Chunks(vec![41])])?;
        }
    }
    Ok(())
}

/// Every beginning of a small input.
fn cuts(check: &mut Check, rng: &mut Rng) -> Result<(), Difference> {
    let mut input = b"5,6,7,4\n5,6,8,3\n-10.25,nan,12,-0\n".to_vec();
    input.extend(good::walk(rng, 2));
    for end in 0..=input.len() {
        check.input(&input[..end], &[Way::Pipe])?;
    }
    Ok(())
}

/// So many equal lines as there are at and around powers of ten.
fn digits(check: &mut Check) -> Result<(), Difference> {
    for power in [10, 100, 1000, 10_000, 100_000, 1_000_000] {
        for count in [power - 1, power, power + 1] {
            check.input(&b"5,6,7,4\n".repeat(count), &[Way::Pipe])?;
        }
    }
    Ok(())
}

/// Every byte at a place of a line.
fn bytes(check: &mut Check, place: usize) -> Result<(), Difference> {
    let (before, after) = LINE.split_at(place);
    for byte in 0..=u8::MAX {
        for skipped in [0, 1] {
            let rest = &after[skipped.min(after.len())..];
            let input = [b"5,6,7,4\n", before, &[byte], rest, b"\n5,6,8,3\n"].concat();
            check.input(&input, &[Way::Pipe])?;
        }
    }
    Ok(())
}

fn random(check: &mut Check, rng: &mut Rng) -> Result<(), Difference> {
    let input = match rng.below(20) {
        0..9 => good::random(rng),
        9..13 => bad::random(rng),
        13..17 => bad::mutated(rng),
        17..19 => bad::cut(rng),
        _ => bad::garbage(rng),
    };
    let way = match rng.below(20) {
        0..13 => Way::Pipe,
        13..18 => Way::File,
        18 => Way::Chunks((0..5).map(|_| rng.between(1, 200)).collect()),
        _ if input.len() < 500 => Way::Chunks(vec![1]),
        _ => Way::Chunks(vec![rng.between(1, 90)]),
    };
    check.input(&input, &[way])
}
