//! Links the static library that `bin/staticlib recognisers` writes.

use std::env;
use std::path::PathBuf;
use std::process::exit;

const VARIABLE: &str = "JCC_LIB_DIR";
const ARCHIVE: &str = "librecognisers.a";

fn main() {
    println!("cargo:rerun-if-env-changed={VARIABLE}");
    let folder = env::var_os(VARIABLE).map_or_else(beside_this_crate, PathBuf::from);
    let archive = folder.join(ARCHIVE);
    println!("cargo:rerun-if-changed={}", archive.display());
    if !archive.is_file() {
        eprintln!(
            "{} is missing: run `bin/staticlib recognisers` at the repository's root, or name the \
             folder of {ARCHIVE} in {VARIABLE}.",
            archive.display()
        );
        exit(1);
    }
    // The linker may run in another folder than this program.
    let folder = folder.canonicalize().unwrap_or(folder);
    println!("cargo:rustc-link-search=native={}", folder.display());
    println!("cargo:rustc-link-lib=static=recognisers");
}

/// The place where `rt` writes the library.
fn beside_this_crate() -> PathBuf {
    let manifest = env::var_os("CARGO_MANIFEST_DIR").expect("cargo sets CARGO_MANIFEST_DIR");
    PathBuf::from(manifest).join("../../target/staticlib")
}
