//! The families that calls are counted by: the random ones, then others.

use inputs::families::FAMILIES;

/// The others.
const OTHERS: [&str; 6] = [
    "signalling",
    "exhaustive",
    "middles",
    "edges",
    "refusals",
    "known",
];

/// Their numbers.
pub const SIGNALLING: usize = FAMILIES.len();
pub const EXHAUSTIVE: usize = SIGNALLING + 1;
pub const MIDDLES: usize = SIGNALLING + 2;
pub const EDGES: usize = SIGNALLING + 3;
pub const REFUSALS: usize = SIGNALLING + 4;
pub const KNOWN: usize = SIGNALLING + 5;

pub fn names() -> impl Iterator<Item = &'static str> {
    FAMILIES.iter().map(|f| f.name).chain(OTHERS)
}
