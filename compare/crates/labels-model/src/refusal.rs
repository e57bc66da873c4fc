//! Why a line is refused.

use std::fmt;

/// A refusal as the program prints it: its number, and with 9 the field's place.
#[derive(Clone, Copy, Debug, PartialEq, Eq)]
pub struct Refusal {
    pub number: u32,
    /// The place, from 1, of the leftmost field that is no price.
    pub place: Option<usize>,
}

impl Refusal {
    /// A line longer than 80 bytes, or with another number of fields than four.
    pub const SHAPE: Refusal = Refusal {
        number: 8,
        place: None,
    };

    /// Four fields, of which the one at a place is the leftmost that is no price.
    pub fn price(place: usize) -> Refusal {
        Refusal {
            number: 9,
            place: Some(place),
        }
    }

    /// A bar that the box refuses.
    pub fn of_feed(number: u32) -> Refusal {
        Refusal {
            number,
            place: None,
        }
    }
}

impl fmt::Display for Refusal {
    fn fmt(&self, f: &mut fmt::Formatter) -> fmt::Result {
        write!(f, "{}", self.number)?;
        match self.place {
            Some(place) => write!(f, ",{place}"),
            None => Ok(()),
        }
    }
}
