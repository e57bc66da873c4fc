//! For build scripts: links a static library that `bin/staticlib` wrote.

use std::env;
use std::path::Path;

/// Links the library that an environment variable names; `compare/setup` sets it.
pub fn link(variable: &str) {
    println!("cargo:rerun-if-env-changed={variable}");
    let archive = env::var(variable)
        .unwrap_or_else(|_| panic!("{variable} is not set: build with compare/run"));
    println!("cargo:rerun-if-changed={archive}");
    let archive = Path::new(&archive);
    let folder = archive.parent().expect("a path with a folder");
    let name = archive.file_stem().and_then(|stem| stem.to_str());
    let name = name.and_then(|stem| stem.strip_prefix("lib"));
    let name = name.expect("an archive is named libNAME.a");
    println!("cargo:rustc-link-search=native={}", folder.display());
    println!("cargo:rustc-link-lib=static={name}");
}
