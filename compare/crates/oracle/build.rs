//! Brings the repository's text into this crate at build time, so that no copy of it is committed:
//! `jcc.rs` as it is, and from `sig.rs` the functions that `jcc.rs` calls.
//!
//! `JCC_RS` and `SIG_RS` name the two files; `compare/run` sets them.

use std::path::{Path, PathBuf};
use std::{env, fs};

/// What `jcc.rs` uses of `sig.rs`, and `make_signal7`, on which the last two lean.
const FROM_SIG: [&str; 5] = [
    "get_sub_elements",
    "get_usize_param",
    "make_signal7",
    "make_kline_signal_v1",
    "make_kline_signal_v2",
];

fn main() {
    let out = PathBuf::from(env::var("OUT_DIR").expect("cargo sets OUT_DIR"));
    let jcc = source("JCC_RS");
    let sig = source("SIG_RS");
    let cut: Vec<String> = FROM_SIG.iter().map(|name| function(&sig, name)).collect();
    write(&out.join("jcc.rs"), &jcc);
    write(&out.join("sig.rs"), &cut.join("\n"));
}

/// The text of the file that an environment variable names.
fn source(variable: &str) -> String {
    println!("cargo:rerun-if-env-changed={variable}");
    let path = env::var(variable)
        .unwrap_or_else(|_| panic!("{variable} is not set: build with compare/run"));
    println!("cargo:rerun-if-changed={path}");
    fs::read_to_string(&path).unwrap_or_else(|e| panic!("{variable}: {path}: {e}"))
}

/// The text of one function: from `pub fn NAME` to the first line that is `}`.
fn function(text: &str, name: &str) -> String {
    let starts = [format!("pub fn {name}("), format!("pub fn {name}<")];
    let lines: Vec<&str> = text
        .lines()
        .skip_while(|line| !starts.iter().any(|s| line.starts_with(s)))
        .collect();
    let end = lines.iter().position(|line| *line == "}");
    let end = end.unwrap_or_else(|| panic!("sig.rs has no function {name}"));
    lines[..=end].join("\n") + "\n"
}

fn write(path: &Path, text: &str) {
    fs::write(path, text).unwrap_or_else(|e| panic!("{}: {e}", path.display()));
}
