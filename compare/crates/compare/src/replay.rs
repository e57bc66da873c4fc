//! Replays a list of answers, as `compare/vectors` writes it, with the export: the files `stdin` and
//! `stdout` of a folder.

use jcc_types::{Answer, BAR_BYTES, Thresholds};
use std::fs;
use std::path::Path;

/// What the lines read so far have set.
struct State {
    bytes: Vec<u8>,
    thresholds: Thresholds,
}

pub fn run(folder: &Path) -> Result<(), String> {
    let calls = read(&folder.join("stdin"))?;
    let answers = read(&folder.join("stdout"))?;
    let mut expected = answers.lines();
    let mut state = State {
        bytes: Vec::new(),
        thresholds: Thresholds::ZERO,
    };
    let mut count = 0;
    for (i, line) in calls.lines().enumerate() {
        let result = state
            .read(line)
            .map_err(|e| format!("line {}: {e}", i + 1))?;
        let Some(ours) = result else { continue };
        let wanted = expected.next().ok_or("fewer answers than calls")?;
        if ours.to_string() != wanted {
            let ours = format!("{ours} ({})", Answer(ours));
            return Err(format!("line {}: {ours} instead of {wanted}", i + 1));
        }
        count += 1;
    }
    if expected.next().is_some() {
        return Err("more answers than calls".to_string());
    }
    println!("compare: {count} answers of the list, 0 differences");
    Ok(())
}

fn read(path: &Path) -> Result<String, String> {
    fs::read_to_string(path).map_err(|e| format!("{}: {e}", path.display()))
}

impl State {
    /// Takes a line; the answer if it is a call.
    fn read(&mut self, line: &str) -> Result<Option<u32>, String> {
        match line.split_once(' ') {
            None if line == "n" => self.bytes.clear(),
            Some(("b", hex)) => self.bytes.extend(bytes::<BAR_BYTES>(hex)?),
            Some(("t", hex)) => self.thresholds = Thresholds::from_bytes(&bytes(hex)?),
            Some(("c", hex)) => return self.call(&bytes(hex)?).map(Some),
            _ => return Err(format!("{line}: no such line")),
        }
        Ok(None)
    }

    fn call(&self, words: &[u8; 8]) -> Result<u32, String> {
        let ([recogniser, offset], _) = words.as_chunks::<4>() else {
            return Err("a call is two words".to_string());
        };
        Ok(label_export::label(
            u32::from_le_bytes(*recogniser),
            u32::from_le_bytes(*offset),
            &self.thresholds,
            &self.bytes,
        ))
    }
}

fn bytes<const N: usize>(hex: &str) -> Result<[u8; N], String> {
    if hex.len() != 2 * N || !hex.is_ascii() {
        return Err(format!("{} digits instead of {}", hex.len(), 2 * N));
    }
    let mut bytes = [0; N];
    for (i, byte) in bytes.iter_mut().enumerate() {
        let digits = &hex[2 * i..2 * i + 2];
        *byte = u8::from_str_radix(digits, 16).map_err(|_| format!("{digits}: no digits"))?;
    }
    Ok(bytes)
}
