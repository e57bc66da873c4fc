//! A plain port of the eighteen recognisers, in document 01's words: a second judge beside the
//! repository, and the plain port of the benchmark. One function a recogniser over a slice of
//! bars; nothing is shared between recognisers, nothing is allocated (the crate has no `std`). Over
//! them a box that is fed bars and looked at, and a tally of what it printed.
//!
//! It differs from the repository where Rust leaves a result open and 01 chooses: max and min of
//! zeros, a window of 17 with a NaN body, and x × x for the square. The thresholds of 13 and 14 are
//! 02's, in tenths.
#![no_std]

mod label;
mod measures;
mod plain_box;
mod refusals;
mod rules;
mod tally;

pub use label::label;
pub use plain_box::{Looked, PlainBox, feed_in_parts, tally_in_parts};
pub use refusals::{feed_refusal, look_refusal, refusal};
pub use tally::Tally;
