//! The sheet that an export is lent.

use crate::text::pair;
use jcc_types::ROW_BYTES;
use lent::Lent;

pub struct Sheet(Lent<u8>);

impl Sheet {
    pub fn new(len: usize) -> Sheet {
        Sheet(Lent::new(len))
    }

    pub fn bytes(&mut self) -> &mut [u8] {
        self.0.elements()
    }

    /// An error unless the sheet begins with these rows and nothing else was written.
    pub fn check(&self, rows: &[u8]) -> Result<(), String> {
        let wrong = |at: usize, written: &[u8]| {
            let (row, recogniser) = (at / ROW_BYTES, at % ROW_BYTES / 2);
            wrong_row(written, rows, row, recogniser)
        };
        self.0
            .check(rows, wrong)
            .map_err(|wrong| format!("sheet, {wrong}"))
    }
}

/// Rows are counted from 1, as bars are.
fn wrong_row(written: &[u8], rows: &[u8], row: usize, recogniser: usize) -> String {
    let number = |bytes: &[u8]| pair_at(bytes, row, recogniser);
    format!(
        "row {}, {}",
        row + 1,
        pair(recogniser as u32, number(rows), number(written)),
    )
}

/// The pair of a recogniser in a row, as v1 × 256 + v2.
pub fn pair_at(rows: &[u8], row: usize, recogniser: usize) -> u32 {
    let at = row * ROW_BYTES + 2 * recogniser;
    u32::from(rows[at]) * 256 + u32::from(rows[at + 1])
}
