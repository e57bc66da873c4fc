//! The layer between minute bars and a box.

use crate::hours::Hours;
use crate::term_bar::TermBar;
use jcc_types::{BAR_PRICES, Bar, ROW_BYTES, Thresholds};
use port::{PlainBox, feed_refusal};

/// The term lengths that a layer takes.
pub const MINUTES: [u32; 3] = [5, 15, 60];

pub struct Layer {
    thresholds: Thresholds,
    hours: Hours,
    /// The length of a term.
    minutes: u32,
    labelled: PlainBox,
    /// The term bars that have ended, all in the box: 01's N.
    ended: usize,
    /// The stamp of the newest bar.
    last: Option<u32>,
    open: Option<TermBar>,
}

impl Layer {
    /// A fresh layer, or refusal 3 or 12.
    pub fn make(t: &Thresholds, hours: &[u32], minutes: u32) -> Result<Layer, u32> {
        let labelled = PlainBox::new(t)?;
        let hours = Hours::of_numbers(hours).ok_or(12_u32)?;
        if !MINUTES.contains(&minutes) {
            return Err(12);
        }
        Ok(Layer {
            thresholds: *t,
            hours,
            minutes,
            labelled,
            ended: 0,
            last: None,
            open: None,
        })
    }

    /// Takes all bars in and writes a row for each term bar that ended; gives their number. Or does
    /// nothing and gives the refusal.
    pub fn run(&mut self, stamps: &[u32], prices: &[f64], sheet: &mut [u8]) -> Result<usize, u32> {
        if prices.len() != stamps.len() * BAR_PRICES {
            return Err(4);
        }
        self.check_feed(prices.len(), sheet)?;
        self.check_stamps(stamps)?;
        let (bars, _) = prices.as_chunks();
        let before = self.ended;
        for (stamp, prices) in stamps.iter().zip(bars) {
            let row = self.ended - before;
            self.take(
                *stamp,
                &Bar::from_prices(*prices),
                &mut sheet[row * ROW_BYTES..],
            )?;
        }
        Ok(self.ended - before)
    }

    /// Ends the open term bar, if there is one, and writes its row; gives the number of rows. Or does
    /// nothing and gives the refusal.
    pub fn close(&mut self, sheet: &mut [u8]) -> Result<usize, u32> {
        self.check_feed(BAR_PRICES, sheet)?;
        match self.open.take() {
            Some(open) => self.label(&open.bar, sheet).map(|()| 1),
            None => Ok(0),
        }
    }

    /// Refuses what a feed of so many prices is refused for: whether a bar ends a term or not, it
    /// counts.
    fn check_feed(&self, prices: usize, sheet: &[u8]) -> Result<(), u32> {
        match feed_refusal(&self.thresholds, self.ended, prices, sheet.len()) {
            Some(refusal) => Err(refusal),
            None => Ok(()),
        }
    }

    /// Stamps rise, so one that is below a term's end is in that term, and within the hours.
    fn check_stamps(&self, stamps: &[u32]) -> Result<(), u32> {
        let mut last = self.last;
        let mut end = 0;
        for stamp in stamps {
            if last.is_some_and(|last| *stamp <= last) {
                return Err(10);
            }
            if u64::from(*stamp) >= end {
                end = self.term_end(*stamp).ok_or(11_u32)?;
            }
            last = Some(*stamp);
        }
        Ok(())
    }

    fn term_end(&self, stamp: u32) -> Option<u64> {
        self.hours.term_end(stamp, self.minutes)
    }

    /// Takes in a bar whose stamp is right.
    fn take(&mut self, stamp: u32, bar: &Bar, sheet: &mut [u8]) -> Result<(), u32> {
        self.last = Some(stamp);
        match &mut self.open {
            Some(open) if u64::from(stamp) < open.end => open.take(bar),
            _ => {
                let end = self.term_end(stamp).ok_or(11_u32)?;
                if let Some(ended) = self.open.replace(TermBar { bar: *bar, end }) {
                    self.label(&ended.bar, sheet)?;
                }
            }
        }
        Ok(())
    }

    /// The row of an ended term bar goes to the start of the sheet.
    fn label(&mut self, bar: &Bar, sheet: &mut [u8]) -> Result<(), u32> {
        self.ended += 1;
        self.labelled.feed(&bar.prices(), sheet)
    }
}
