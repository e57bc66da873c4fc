//! Whether a tally is that of the rows that the labels program printed, and of so many bars, whatever
//! the model says.

use jcc_types::RECOGNISERS;
use std::collections::BTreeMap;

/// The lines of a tally that the printed labels ask for, in some order: those of 其他 are not among
/// them, since no labels are printed for it.
pub fn counted(labels: &[u8]) -> Vec<Vec<u8>> {
    let mut counts = BTreeMap::<&[u8], u64>::new();
    for line in lines(labels) {
        if line.starts_with(b"refused,") {
            return vec![line.to_vec()];
        }
        *counts.entry(recogniser_and_v1(line)).or_default() += 1;
    }
    let line = |(cell, count): (&&[u8], &u64)| [*cell, format!(",{count}").as_bytes()].concat();
    sorted(counts.iter().map(line))
}

/// The lines of a tally in the same order, without those of 其他.
pub fn printed(tally: &[u8]) -> Vec<Vec<u8>> {
    let other = ",其他,".as_bytes();
    let is_other = |line: &&[u8]| line.windows(other.len()).any(|part| part == other);
    let lines = lines(tally).filter(|line| !is_other(line));
    sorted(lines.map(<[u8]>::to_vec))
}

/// What each recogniser's counts add up to; nothing if a line is not recogniser,label,count.
pub fn sums(tally: &[u8]) -> Option<[u64; RECOGNISERS]> {
    let mut sums = [0; RECOGNISERS];
    for line in str::from_utf8(tally).ok()?.lines() {
        let mut fields = line.split(',');
        let (recogniser, count) = (fields.next()?, fields.next_back()?);
        *sums.get_mut(recogniser.parse::<usize>().ok()?)? += count.parse::<u64>().ok()?;
    }
    Some(sums)
}

fn lines(output: &[u8]) -> impl Iterator<Item = &[u8]> {
    let lines = output.split_inclusive(|byte| *byte == b'\n');
    lines.map(|line| line.strip_suffix(b"\n").unwrap_or(line))
}

/// What stands between the first and the last comma of ordinal,recogniser,v1,v2.
fn recogniser_and_v1(line: &[u8]) -> &[u8] {
    let is_comma = |byte: &u8| *byte == b',';
    let first = line.iter().position(is_comma);
    let last = line.iter().rposition(is_comma);
    match (first, last) {
        (Some(first), Some(last)) if first < last => &line[first + 1..last],
        _ => line,
    }
}

fn sorted(lines: impl Iterator<Item = Vec<u8>>) -> Vec<Vec<u8>> {
    let mut lines: Vec<Vec<u8>> = lines.collect();
    lines.sort();
    lines
}
