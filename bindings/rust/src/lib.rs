//! Eighteen recognisers of candlestick patterns, as safe Rust over a static library whose code is
//! proved in Rattle to follow its definitions for every input.
//!
//! A recogniser judges one bar of a history and gives two labels:
//!
//! ```
//! use sodsundial_jcc::{label, Bar, Label, Recogniser, Refusal, Thresholds};
//!
//! // open, close, high, low; the oldest bar first
//! let bars = [Bar::new(5.0, 6.0, 7.0, 4.0), Bar::new(5.0, 6.0, 8.0, 3.0)];
//!
//! // The newest bar, offset 1, engulfs the one before.
//! let pair = label(Recogniser::TenMo, 1, &Thresholds::STANDARD, &bars)?;
//! assert_eq!(pair.v1, Label::Met);
//! assert_eq!(pair.to_string(), "满足/其他");
//!
//! // Offset 2 is the bar before; an offset beyond the history gives the short pair.
//! let pair = label(Recogniser::TenMo, 2, &Thresholds::STANDARD, &bars)?;
//! assert_eq!(pair.v1, Label::Other);
//!
//! let refused = label(Recogniser::TenMo, 0, &Thresholds::STANDARD, &bars);
//! assert_eq!(refused, Err(Refusal::Offset));
//! # Ok::<(), Refusal>(())
//! ```
//!
//! A call keeps nothing, allocates nothing and reads at most 42 bars, however long the history is.
//! Calls may run on several threads at once.
#![deny(missing_docs)]

mod bar;
mod ffi;
mod label;
mod recogniser;
mod refusal;

pub use bar::{Bar, Thresholds};
pub use label::{Label, Pair};
pub use recogniser::Recogniser;
pub use refusal::Refusal;

/// The most bars of a history.
pub const MOST_BARS: usize = 1_000_000;

/// The result of a call is below this for a pair of labels; otherwise it is this plus a refusal.
const REFUSED: u32 = 65_536;

/// The labels of the bar that an offset names: 1 is the newest bar, 2 the one before. The oldest bar
/// comes first.
///
/// # Errors
///
/// [`Refusal::Offset`], [`Refusal::Threshold`] or [`Refusal::History`], whichever applies first.
pub fn label(
    recogniser: Recogniser,
    offset: u32,
    thresholds: &Thresholds,
    bars: &[Bar],
) -> Result<Pair, Refusal> {
    label_number(recogniser.number(), offset, thresholds, bars)
}

/// As [`label`], with the recogniser's number.
///
/// ```
/// use sodsundial_jcc::{label_number, Refusal, Thresholds};
///
/// let refused = label_number(18, 1, &Thresholds::STANDARD, &[]);
/// assert_eq!(refused, Err(Refusal::Recogniser));
/// ```
///
/// # Errors
///
/// [`Refusal::Recogniser`], or as [`label`].
pub fn label_number(
    recogniser: u32,
    offset: u32,
    thresholds: &Thresholds,
    bars: &[Bar],
) -> Result<Pair, Refusal> {
    #[cfg(target_endian = "little")]
    let result = ffi::call(recogniser, offset, thresholds, bars);
    #[cfg(target_endian = "big")]
    let result = {
        let bytes: Vec<u8> = bars.iter().flat_map(|bar| bar.to_bytes()).collect();
        ffi::call(recogniser, offset, thresholds, &bytes)
    };
    answer(result)
}

/// As [`label_number`], over bars that are bytes already: 32 to a bar, the bits of open, close, high
/// and low, each little-endian. The bytes need no alignment.
///
/// ```
/// use sodsundial_jcc::{label_bytes, Bar, Refusal, Thresholds};
///
/// let bytes = Bar::new(10.0, 11.0, 11.0, 7.0).to_bytes();
/// let pair = label_bytes(0, 1, &Thresholds::STANDARD, &bytes)?;
/// assert_eq!(pair.to_string(), "满足/其他");
///
/// let refused = label_bytes(0, 1, &Thresholds::STANDARD, &bytes[..31]);
/// assert_eq!(refused, Err(Refusal::Bytes));
/// # Ok::<(), Refusal>(())
/// ```
///
/// # Errors
///
/// [`Refusal::Bytes`], or as [`label_number`].
pub fn label_bytes(
    recogniser: u32,
    offset: u32,
    thresholds: &Thresholds,
    bytes: &[u8],
) -> Result<Pair, Refusal> {
    answer(ffi::call(recogniser, offset, thresholds, bytes))
}

/// What a result stands for.
fn answer(result: u32) -> Result<Pair, Refusal> {
    let known = if result < REFUSED {
        let [.., v1, v2] = result.to_be_bytes();
        let [v1, v2] = [v1, v2].map(Label::from_code);
        v1.zip(v2).map(|(v1, v2)| Ok(Pair { v1, v2 }))
    } else {
        Refusal::from_number(result - REFUSED).map(Err)
    };
    known.unwrap_or_else(|| panic!("the library gave {result}, which is no answer of this version"))
}

#[cfg(test)]
mod tests {
    use super::*;

    #[test]
    fn results() {
        let pair = answer(21 * 256 + 1).expect("a pair");
        assert_eq!((pair.v1, pair.v2), (Label::Bearish, Label::Any));
        assert_eq!(answer(65_537), Err(Refusal::Recogniser));
        assert_eq!(answer(65_541), Err(Refusal::History));
    }
}
