//! 01's box, plainly: every bar that is fed is labelled by all recognisers over the kept bars.

use crate::label::label;
use crate::refusals::{feed_refusal, look_refusal, tallied_refusal, within_limits};
use crate::tally::Tally;
use jcc_types::{BAR_PRICES, Bar, KEPT, Pair, ROW_BYTES, Thresholds};

pub struct PlainBox {
    thresholds: Thresholds,
    /// The bars fed, kept or not: 01's N.
    fed: usize,
    /// The newest bars, oldest first from the first place; zeros where there are fewer.
    bars: [Bar; KEPT],
    /// The ordinal of each, written with it: 1 for the first bar that was ever fed. They are apart from
    /// the bars because a rule is handed a slice of these.
    ordinals: [u32; KEPT],
}

/// What a look hands back: the pair, and the judged bar's ordinal, or 0 if there is no such bar.
#[derive(Clone, Copy, Debug)]
pub struct Looked {
    pub pair: Pair,
    pub ordinal: u32,
}

impl PlainBox {
    /// A fresh box, or refusal 3.
    pub fn new(t: &Thresholds) -> Result<PlainBox, u32> {
        if !within_limits(t) {
            return Err(3);
        }
        Ok(PlainBox {
            thresholds: *t,
            fed: 0,
            bars: [Bar::from_prices([0.0; BAR_PRICES]); KEPT],
            ordinals: [0; KEPT],
        })
    }

    /// Takes all bars in and writes a row for each, or does nothing and gives the refusal.
    pub fn feed(&mut self, prices: &[f64], sheet: &mut [u8]) -> Result<(), u32> {
        if let Some(refusal) = feed_refusal(&self.thresholds, self.fed, prices.len(), sheet.len()) {
            return Err(refusal);
        }
        let (bars, _) = prices.as_chunks::<BAR_PRICES>();
        let (rows, _) = sheet.as_chunks_mut::<ROW_BYTES>();
        for (bar, row) in bars.iter().zip(rows) {
            self.take(Bar::from_prices(*bar));
            self.write(row);
        }
        Ok(())
    }

    /// The pair and the ordinal at an offset, or the refusal.
    pub fn look(&self, recogniser: u32, offset: u32) -> Result<Looked, u32> {
        match look_refusal(recogniser, offset) {
            Some(refusal) => Err(refusal),
            None => Ok(Looked {
                pair: self.pair(recogniser as usize, offset),
                ordinal: self.ordinal(offset),
            }),
        }
    }

    /// The oldest bar makes room if there is none.
    fn take(&mut self, bar: Bar) {
        let place = if self.fed < KEPT {
            self.fed
        } else {
            self.bars.copy_within(1.., 0);
            self.ordinals.copy_within(1.., 0);
            KEPT - 1
        };
        self.fed += 1;
        self.bars[place] = bar;
        self.ordinals[place] = self.fed as u32;
    }

    fn write(&self, row: &mut [u8; ROW_BYTES]) {
        for (k, codes) in row.as_chunks_mut::<2>().0.iter_mut().enumerate() {
            *codes = self.pair(k, 1).codes();
        }
    }

    /// The kept bars stand for the whole history: of the bars up to a judged one they have all or
    /// at least 22, and no rule asks for more; 12's gate asks whether len is above 23, and they are
    /// above 23 exactly if N is.
    fn pair(&self, recogniser: usize, offset: u32) -> Pair {
        let kept = &self.bars[..self.kept()];
        label(recogniser, offset, &self.thresholds, kept)
    }

    /// What stands beside the judged bar; the offset is at least 1.
    fn ordinal(&self, offset: u32) -> u32 {
        let place = self.kept().checked_sub(offset as usize);
        place.map_or(0, |place| self.ordinals[place])
    }

    fn kept(&self) -> usize {
        self.fed.min(KEPT)
    }
}

/// Makes a box and feeds it the prices in feeds of these sizes, in bars: 0 is an empty feed, a size
/// beyond what is left takes what is left, and what the sizes leave goes into one last feed. Gives
/// the box, or the refusal that one feed of all the prices gets; the sheet is then unchanged.
pub fn feed_in_parts(
    t: &Thresholds,
    sizes: &[u32],
    mut prices: &[f64],
    mut sheet: &mut [u8],
) -> Result<PlainBox, u32> {
    let mut made = PlainBox::new(t)?;
    if let Some(refusal) = feed_refusal(t, 0, prices.len(), sheet.len()) {
        return Err(refusal);
    }
    for size in sizes {
        let bars = (*size as usize).min(prices.len() / BAR_PRICES);
        let (now, later) = prices.split_at(bars * BAR_PRICES);
        made.feed(now, sheet)?;
        prices = later;
        sheet = &mut sheet[bars * ROW_BYTES..];
    }
    made.feed(prices, sheet)?;
    Ok(made)
}

/// The same feeds with a tally, which must be that of a fresh box. A refusal leaves it as it is.
pub fn tally_in_parts(
    t: &Thresholds,
    sizes: &[u32],
    prices: &[f64],
    sheet: &mut [u8],
    tally: &mut Tally,
) -> Result<PlainBox, u32> {
    if let Some(refusal) = tallied_refusal(t, 0, prices.len(), sheet.len(), tally) {
        return Err(refusal);
    }
    let fed = feed_in_parts(t, sizes, prices, sheet)?;
    tally.count_rows(&sheet[..prices.len() / BAR_PRICES * ROW_BYTES]);
    Ok(fed)
}
