//! Terms of the trading day in plain Rust, over the plain box: minute bars become bars of 5, 15 or 60
//! minutes, and the box labels each that has ended. Written from 02 alone; nothing is allocated.
#![no_std]

mod hours;
mod layer;
mod list;
mod term_bar;

pub use hours::{DAY, Hours, Window};
pub use layer::{Layer, MINUTES};
pub use list::{List, REFUSED};
