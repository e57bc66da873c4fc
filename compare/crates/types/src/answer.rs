//! The form of an answer, and its text.

use crate::label::LABELS;
use core::fmt;

/// An answer above this is a refusal: the difference is the refusal's number.
pub const REFUSED: u32 = 65_536;

/// An answer in the export's form, shown as a pair of labels or as a refusal.
pub struct Answer(pub u32);

impl fmt::Display for Answer {
    fn fmt(&self, f: &mut fmt::Formatter<'_>) -> fmt::Result {
        let Answer(number) = *self;
        if number > REFUSED {
            return write!(f, "refusal {}", number - REFUSED);
        }
        let text = |code: u32| LABELS.get(code as usize).copied().unwrap_or("?");
        write!(f, "{}/{}", text(number / 256), text(number % 256))
    }
}
