//! The ordinal that a look must hand back.

use inputs::looks::Look;
use port::PlainBox;
use std::fmt;

#[derive(Clone, Copy)]
pub enum Ordinal {
    /// The judged bar's.
    Of(u32),
    /// 0: the offset is beyond the history.
    Beyond,
    /// 0: the feed or the look is refused.
    Refused,
}

impl Ordinal {
    /// 02's N − di + 1, told from the number of bars alone.
    pub fn told(bars: usize, look: Look) -> Ordinal {
        if port::look_refusal(look.recogniser, look.offset).is_some() {
            return Ordinal::Refused;
        }
        match bars.checked_sub(look.offset as usize) {
            Some(older) => Ordinal::Of(older as u32 + 1),
            None => Ordinal::Beyond,
        }
    }

    /// The export's form.
    pub fn number(self) -> u32 {
        match self {
            Ordinal::Of(ordinal) => ordinal,
            Ordinal::Beyond | Ordinal::Refused => 0,
        }
    }
}

/// What the plain box says, in the export's form.
pub fn of_plain_box(plain: &PlainBox, look: Look) -> u32 {
    let looked = plain.look(look.recogniser, look.offset);
    looked.map_or(0, |looked| looked.ordinal)
}

impl fmt::Display for Ordinal {
    fn fmt(&self, f: &mut fmt::Formatter<'_>) -> fmt::Result {
        match self {
            Ordinal::Of(ordinal) => write!(f, "{ordinal}"),
            Ordinal::Beyond => f.write_str("0 (beyond the history)"),
            Ordinal::Refused => f.write_str("0 (refused)"),
        }
    }
}
