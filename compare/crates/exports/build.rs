//! Links the static library that `bin/staticlib exports` writes.

fn main() {
    archive::link("EXPORTS_A");
}
