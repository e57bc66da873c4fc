//! Links the static library that `bin/staticlib records` writes.

fn main() {
    archive::link("RECORDS_A");
}
