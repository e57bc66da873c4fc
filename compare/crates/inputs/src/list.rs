//! The lines of a list of calls, as the program test_replay reads them:
//!
//! ```text
//! n            a new, empty history
//! b HEX64      one more bar, 32 bytes
//! t HEX120     the thresholds, 60 bytes
//! c HEX16      a call: recogniser and offset, 4 bytes each
//! ```
//!
//! Numbers are little-endian. At the start the history is empty and the thresholds are zero bytes.
//! For each `c` line there is one line of answers, the result in decimal.

use jcc_types::{Bar, Thresholds};
use std::fmt::Write;

pub fn history(out: &mut String, bars: &[Bar]) {
    out.push_str("n\n");
    for bar in bars {
        line(out, 'b', &bar.to_bytes());
    }
}

pub fn thresholds(out: &mut String, t: &Thresholds) {
    line(out, 't', &t.to_bytes());
}

pub fn call(out: &mut String, recogniser: u32, offset: u32) {
    let mut bytes = [0; 8];
    bytes[..4].copy_from_slice(&recogniser.to_le_bytes());
    bytes[4..].copy_from_slice(&offset.to_le_bytes());
    line(out, 'c', &bytes);
}

fn line(out: &mut String, kind: char, bytes: &[u8]) {
    out.push(kind);
    out.push(' ');
    for byte in bytes {
        write!(out, "{byte:02x}").expect("text grows");
    }
    out.push('\n');
}
