//! Links the static library that `bin/staticlib recognisers` writes.

fn main() {
    archive::link("RECOGNISERS_A");
}
