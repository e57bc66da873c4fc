//! Texts of a report.

use crate::ordinal::Ordinal;
use inputs::looks::Look;
use jcc_types::{Answer, Bar, NAMES, Thresholds};
use std::fmt::Write;

/// What a recogniser should give and what it gave.
pub fn pair(recogniser: u32, expected: u32, got: u32) -> String {
    let name = NAMES.get(recogniser as usize).copied().unwrap_or("none");
    format!(
        "recogniser {recogniser} ({name}): {got} ({}) instead of {expected} ({})",
        Answer(got),
        Answer(expected),
    )
}

/// The ordinal that a look should give and the one that it gave.
pub fn ordinal(look: Look, expected: Ordinal, got: u32) -> String {
    let Look { recogniser, offset } = look;
    format!("recogniser {recogniser}, offset {offset}: ordinal {got} instead of {expected}")
}

/// The sizes of feeds, equal ones together.
pub fn sizes(sizes: &[u32]) -> String {
    if sizes.is_empty() {
        return "one feed".to_string();
    }
    let mut text = String::from("feeds of ");
    for run in sizes.chunk_by(|a, b| a == b) {
        match run {
            [size] => write!(text, "{size}, "),
            [size, ..] => write!(text, "{size} ({} times), ", run.len()),
            [] => Ok(()),
        }
        .expect("text grows");
    }
    text + "then what is left"
}

/// How many counts are lent, and those that are not zero, by their places.
pub fn tally(counts: &[u32]) -> String {
    let mut text = format!("{} counts", counts.len());
    for (at, count) in counts.iter().enumerate().filter(|(_, n)| **n != 0) {
        write!(text, ", {at}: {count}").expect("text grows");
    }
    text
}

/// The thresholds in 01's order; the bits of the two that are no whole numbers.
pub fn thresholds(t: &Thresholds) -> String {
    let [th0, th8] = t.reals().map(f64::to_bits);
    format!("{t:?}, bits of th0 {th0:016x}, of th8 {th8:016x}")
}

/// A line for each bar, from a number on: open, close, high and low in decimal and as bits. Equal
/// bars in a row are one line.
pub fn bars(mut number: usize, bars: &[Bar]) -> String {
    let mut text = String::new();
    for run in bars.chunk_by(|a, b| a.to_bytes() == b.to_bytes()) {
        let [open, close, high, low] = run[0].prices();
        let [a, b, c, d] = run[0].prices().map(f64::to_bits);
        let last = number + run.len() - 1;
        let numbers = if run.len() == 1 {
            number.to_string()
        } else {
            format!("{number} to {last}")
        };
        writeln!(
            text,
            "{numbers}: {open:?}/{close:?}/{high:?}/{low:?}  {a:016x} {b:016x} {c:016x} {d:016x}"
        )
        .expect("text grows");
        number = last + 1;
    }
    text
}
