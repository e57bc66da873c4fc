//! Links the two versions of the library that `bench/turns` names apart.

fn main() {
    archive::link("BEFORE_A");
    archive::link("AFTER_A");
}
