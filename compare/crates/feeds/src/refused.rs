//! Calls that are refused, with one reason and with several, and their neighbours that are not.

use crate::counts::Counts;
use crate::ordinal::{self, Ordinal};
use crate::sheet::Sheet;
use crate::tally::Tally;
use crate::text;
use inputs::looks::Look;
use inputs::{refusals, tallies};
use jcc_types::{Answer, BAR_PRICES, Bar, MAX_BARS, REFUSED, ROW_BYTES, TALLY_COUNTS, Thresholds};
use port::PlainBox;
use program::Difference;

/// Accepted calls have no more bars than this; a longer one is not a matter of refusals.
const MOST_ACCEPTED: usize = 100;

/// Sizes of feeds: a refusal is that of one feed of all prices, however they are cut.
const SIZES: [&[u32]; 4] = [&[], &[1], &[0, 2], &[u32::MAX]];

/// A call with a part of the prices of a long walk.
#[derive(Clone, Copy)]
struct Call<'a> {
    thresholds: &'a Thresholds,
    sizes: &'a [u32],
    prices: &'a [f64],
    sheet_len: usize,
    export: Export<'a>,
}

/// The export that is called, with what it alone is handed.
#[derive(Clone, Copy)]
enum Export<'a> {
    Feed,
    Look(Look),
    Ordinal(Look),
    Tally(&'a [u32]),
}

/// A look that is refused only if its feed is.
const NEWEST: Look = Look {
    recogniser: 0,
    offset: 1,
};

/// The walk has one bar more than there may be.
pub fn all(tally: &mut Tally, walk: &[Bar]) -> Result<(), Difference> {
    let mut prices: Vec<f64> = walk.iter().flat_map(Bar::prices).collect();
    prices.extend([0.0; BAR_PRICES]);
    let mut try_call = |call: Call| {
        tally.refusals += 1;
        call.check(tally)
            .map_err(|wrong| Difference(call.report(&wrong)))
    };
    let fresh = tallies::fresh(TALLY_COUNTS);
    let other = tallies::of_bars(1);
    let exports = [
        Export::Feed,
        Export::Ordinal(NEWEST),
        Export::Tally(&fresh),
        Export::Tally(&other),
    ];
    short_feeds(&prices, exports, &mut try_call)?;
    long_feeds(&prices, exports, &mut try_call)?;
    looks(&prices, &mut try_call)?;
    all_tallies(&prices, &mut try_call)
}

/// All thresholds, numbers of prices and lengths of sheets together, as long as they are short.
fn short_feeds(
    prices: &[f64],
    exports: [Export; 4],
    try_call: &mut impl FnMut(Call) -> Result<(), Difference>,
) -> Result<(), Difference> {
    for thresholds in &refusals::thresholds() {
        for count in refusals::price_counts() {
            let bars = (count / BAR_PRICES).min(MOST_ACCEPTED);
            for sheet_len in refusals::sheet_lengths(bars) {
                for (sizes, export) in with_sizes(exports) {
                    try_call(Call {
                        thresholds,
                        sizes,
                        prices: &prices[..count],
                        sheet_len,
                        export,
                    })?;
                }
            }
        }
    }
    Ok(())
}

/// The most bars with a sheet that is one byte too short, and one bar more with enough room.
fn long_feeds(
    prices: &[f64],
    exports: [Export; 4],
    try_call: &mut impl FnMut(Call) -> Result<(), Difference>,
) -> Result<(), Difference> {
    for (bars, sheet_len) in [
        (MAX_BARS, MAX_BARS * ROW_BYTES - 1),
        (MAX_BARS + 1, (MAX_BARS + 1) * ROW_BYTES),
    ] {
        let look = Export::Look(Look {
            recogniser: 18,
            offset: 0,
        });
        for export in exports.into_iter().chain([look]) {
            try_call(Call {
                thresholds: &Thresholds::STANDARD,
                sizes: &[4096],
                prices: &prices[..bars * BAR_PRICES],
                sheet_len,
                export,
            })?;
        }
    }
    Ok(())
}

/// Refused looks after feeds that are refused and feeds that are not.
fn looks(
    prices: &[f64],
    try_call: &mut impl FnMut(Call) -> Result<(), Difference>,
) -> Result<(), Difference> {
    for feed in few_feeds(prices) {
        for recogniser in refusals::RECOGNISERS {
            for offset in refusals::LOOK_OFFSETS {
                let look = Look { recogniser, offset };
                for export in [Export::Look(look), Export::Ordinal(look)] {
                    try_call(Call { export, ..feed })?;
                }
            }
        }
    }
    Ok(())
}

/// Tallies of all kinds with feeds that are refused by themselves and feeds that are not.
fn all_tallies(
    prices: &[f64],
    try_call: &mut impl FnMut(Call) -> Result<(), Difference>,
) -> Result<(), Difference> {
    let mut tallies = tallies::all();
    tallies.extend(OTHERS.map(|bars| of_walk(prices, bars)));
    for tally in &tallies {
        for feed in few_feeds(prices) {
            for (sizes, export) in with_sizes([Export::Tally(tally)]) {
                try_call(Call {
                    sizes,
                    export,
                    ..feed
                })?;
            }
        }
    }
    Ok(())
}

/// A threshold that is refused.
const NAN: Thresholds = Thresholds {
    th8: f64::NAN,
    ..Thresholds::STANDARD
};

/// Numbers of prices: whole bars and not.
const FEW_PRICES: [usize; 6] = [0, 1, 4, 8, 50 * BAR_PRICES, 50 * BAR_PRICES + 2];

/// Feeds that are refused by 3, by 4, by 6, by several and by none.
fn few_feeds(prices: &[f64]) -> Vec<Call<'_>> {
    let mut feeds = Vec::new();
    for thresholds in [&Thresholds::STANDARD, &NAN] {
        for count in FEW_PRICES {
            for sheet_len in refusals::sheet_lengths(count / BAR_PRICES) {
                feeds.push(Call {
                    thresholds,
                    sizes: &[1],
                    prices: &prices[..count],
                    sheet_len,
                    export: Export::Feed,
                });
            }
        }
    }
    feeds
}

/// Bars of a box that was fed before, some of them as many as it is fed now.
const OTHERS: [usize; 5] = [1, 2, 50, 64, 100];

/// The tally that these bars of the walk leave.
fn of_walk(prices: &[f64], bars: usize) -> Vec<u32> {
    let mut sheet = vec![0; bars * ROW_BYTES];
    let prices = &prices[..bars * BAR_PRICES];
    let fed = port::feed_in_parts(&Thresholds::STANDARD, &[], prices, &mut sheet);
    assert!(fed.is_ok(), "the feed is accepted");
    port::Tally::of_sheet(&sheet).numbers().to_vec()
}

fn with_sizes<'a, const N: usize>(
    exports: [Export<'a>; N],
) -> impl Iterator<Item = (&'static [u32], Export<'a>)> {
    let with = move |sizes| exports.into_iter().map(move |export| (sizes, export));
    SIZES.into_iter().flat_map(with)
}

impl Call<'_> {
    fn check(&self, compared: &mut Tally) -> Result<(), String> {
        let mut expected = Sheet::new(self.sheet_len);
        let mut tally = port::Tally::of_numbers(self.counts());
        let (t, sizes, prices) = (self.thresholds, self.sizes, self.prices);
        let made = port::tally_in_parts(t, sizes, prices, expected.bytes(), &mut tally);
        let wanted = self.answer(&made);
        if let Some(told) = self.told(&made) {
            if wanted != told.number() {
                return Err(format!("plain box, ordinal {wanted} instead of {told}"));
            }
            compared.see_ordinal(told);
        }
        let mut sheet = Sheet::new(self.sheet_len);
        let mut counts = Counts::new(self.counts());
        let got = self.make(sheet.bytes(), counts.numbers());
        if got != wanted {
            return Err(format!(
                "{} instead of {}",
                self.name(got),
                self.name(wanted)
            ));
        }
        let bars = if made.is_ok() {
            self.prices.len() / BAR_PRICES
        } else {
            0
        };
        sheet.check(&expected.bytes()[..bars * ROW_BYTES])?;
        counts.check(&tally)
    }

    /// The counts that are lent: none to an export without a tally.
    fn counts(&self) -> &[u32] {
        match self.export {
            Export::Tally(counts) => counts,
            Export::Feed | Export::Look(_) | Export::Ordinal(_) => &[],
        }
    }

    /// The ordinal that the number of bars tells, if one is asked for.
    fn told(&self, made: &Result<PlainBox, u32>) -> Option<Ordinal> {
        match (made, self.export) {
            (Ok(_), Export::Ordinal(look)) => {
                Some(Ordinal::told(self.prices.len() / BAR_PRICES, look))
            }
            (Err(_), Export::Ordinal(_)) => Some(Ordinal::Refused),
            _ => None,
        }
    }

    /// What the export must say of a box that was fed or refused.
    fn answer(&self, made: &Result<PlainBox, u32>) -> u32 {
        match (made, self.export) {
            (Err(refusal), Export::Look(_)) => REFUSED + refusal,
            (Err(_), Export::Ordinal(_)) => 0,
            (Err(refusal), _) => *refusal,
            (Ok(plain), Export::Look(look)) => match plain.look(look.recogniser, look.offset) {
                Ok(looked) => looked.pair.number(),
                Err(refusal) => REFUSED + refusal,
            },
            (Ok(plain), Export::Ordinal(look)) => ordinal::of_plain_box(plain, look),
            (Ok(_), _) => 0,
        }
    }

    fn make(&self, sheet: &mut [u8], counts: &mut [u32]) -> u32 {
        let (t, sizes, prices) = (self.thresholds, self.sizes, self.prices);
        match self.export {
            Export::Feed => exports::feed(t, sizes, prices, sheet),
            Export::Look(Look { recogniser, offset }) => {
                exports::look(recogniser, offset, t, sizes, prices, sheet)
            }
            Export::Ordinal(Look { recogniser, offset }) => {
                exports::look_ordinal(recogniser, offset, t, sizes, prices, sheet)
            }
            Export::Tally(_) => exports::tally(t, sizes, prices, sheet, counts),
        }
    }

    /// An answer of the call in words.
    fn name(&self, answer: u32) -> String {
        match self.export {
            Export::Look(_) => format!("{answer} ({})", Answer(answer)),
            Export::Ordinal(_) => format!("ordinal {answer}"),
            _ if answer == 0 => "no refusal".to_string(),
            _ => format!("refusal {answer}"),
        }
    }

    fn report(&self, wrong: &str) -> String {
        let call = match self.export {
            Export::Feed => "jcc_feed".to_string(),
            Export::Look(look) => format!("jcc_look, {look:?}"),
            Export::Ordinal(look) => format!("jcc_look_ordinal, {look:?}"),
            Export::Tally(counts) => format!("jcc_tally, {}", text::tally(counts)),
        };
        format!(
            "{call}: {wrong}\n{} prices in {}, a sheet of {} bytes\n{}",
            self.prices.len(),
            text::sizes(self.sizes),
            self.sheet_len,
            text::thresholds(self.thresholds),
        )
    }
}
