//! Where the labels come from.

use jcc_types::{Bar, RECOGNISERS, ROW_BYTES, Thresholds};
use oracle::{Oracle, Verdict};
use port::PlainBox;

/// A bar's row in a sheet: v1 and v2 of each recogniser.
pub type Row = [u8; ROW_BYTES];

/// Is handed the bars of a history one by one.
pub trait Judge {
    /// The row of the next bar, or the number of the refusal.
    fn next(&mut self, bar: &Bar) -> Result<Row, u32>;
}

fn fresh_box() -> PlainBox {
    let made = PlainBox::new(&Thresholds::STANDARD);
    made.unwrap_or_else(|_| unreachable!("the standard set is within its limits"))
}

/// The plain port's box.
pub struct Port {
    fed: PlainBox,
}

impl Port {
    pub fn new() -> Port {
        Port { fed: fresh_box() }
    }
}

impl Default for Port {
    fn default() -> Port {
        Port::new()
    }
}

impl Judge for Port {
    fn next(&mut self, bar: &Bar) -> Result<Row, u32> {
        let mut row = [0; ROW_BYTES];
        self.fed.feed(&bar.prices(), &mut row)?;
        Ok(row)
    }
}

/// The repository's functions over the whole history up to each bar. The refusals, and the pairs in
/// 01's corners, where Rust leaves the repository's answer open, are the port's.
pub struct Repository {
    port: Port,
    oracle: Oracle,
    /// How many pairs were in a corner.
    pub corners: u64,
}

impl Repository {
    pub fn new() -> Repository {
        Repository {
            port: Port::new(),
            oracle: Oracle::new(),
            corners: 0,
        }
    }
}

impl Default for Repository {
    fn default() -> Repository {
        Repository::new()
    }
}

impl Judge for Repository {
    fn next(&mut self, bar: &Bar) -> Result<Row, u32> {
        let mut row = self.port.next(bar)?;
        self.oracle.push(bar);
        for recogniser in 0..RECOGNISERS {
            match self.oracle.verdict(recogniser, 1) {
                Verdict::Answer(pair) => {
                    row[2 * recogniser] = (pair / 256) as u8;
                    row[2 * recogniser + 1] = (pair % 256) as u8;
                }
                Verdict::Open(..) => self.corners += 1,
                Verdict::NoAnswer => unreachable!("the standard set is in whole units"),
            }
        }
        Ok(row)
    }
}
