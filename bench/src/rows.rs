//! What is measured: a name and a closure that labels the first bars of the walk and writes the
//! labels into a sheet, 36 bytes a bar.

use jcc_types::{BAR_BYTES, BAR_PRICES, Bar, KEPT, RECOGNISERS, ROW_BYTES, TALLY_COUNTS};
use measure::{accepted, feed, sizes, thresholds};
use oracle::Oracle;
use port::Tally;

/// The bars of the rows that label by plain calls: the repository's functions are slow.
pub const CALLS: usize = 100_000;

/// The bars of the rows that feed a box: as many as there may be, and few.
pub const FEEDS: usize = 1_000_000;
pub const FEW: usize = 10_000;

pub struct Row<'a> {
    pub name: &'static str,
    /// The bars that one pass labels.
    pub bars: usize,
    /// The passes that are timed together: several where one is too short.
    pub passes: usize,
    /// Whether it is the plain port to which the rows below it are compared.
    pub is_port: bool,
    /// Whether it is the row above it with a tally.
    pub is_tallied: bool,
    pub run: Run<'a>,
}

/// Labels the bars and writes their rows.
type Run<'a> = Box<dyn FnMut(&mut [u8]) + 'a>;

fn row<'a>(name: &'static str, bars: usize, run: impl FnMut(&mut [u8]) + 'a) -> Row<'a> {
    Row {
        name,
        bars,
        passes: 1,
        is_port: false,
        is_tallied: false,
        run: Box::new(run),
    }
}

fn port_row<'a>(name: &'static str, bars: usize, run: impl FnMut(&mut [u8]) + 'a) -> Row<'a> {
    Row {
        is_port: true,
        ..row(name, bars, run)
    }
}

fn tally_row<'a>(name: &'static str, bars: usize, run: impl FnMut(&mut [u8]) + 'a) -> Row<'a> {
    Row {
        is_tallied: true,
        ..row(name, bars, run)
    }
}

/// The walk in the forms that the rows take it in.
pub struct Walked {
    bars: Vec<Bar>,
    bytes: Vec<u8>,
    prices: Vec<f64>,
    /// The tally of its bars, by the plain port.
    tally: Tally,
}

impl Walked {
    pub fn new(bars: Vec<Bar>) -> Walked {
        let prices: Vec<f64> = bars.iter().flat_map(Bar::prices).collect();
        let mut sheet = vec![0; bars.len() * ROW_BYTES];
        plain_box(bars.len(), &prices, &mut sheet);
        Walked {
            bytes: bars[..CALLS].iter().flat_map(|b| b.to_bytes()).collect(),
            tally: Tally::of_sheet(&sheet),
            prices,
            bars,
        }
    }

    fn prices(&self, bars: usize) -> &[f64] {
        &self.prices[..bars * BAR_PRICES]
    }
}

pub fn all(walked: &Walked) -> Vec<Row<'_>> {
    let mut rows = calls(walked);
    rows.extend(feeds(walked));
    rows
}

fn calls(walked: &Walked) -> Vec<Row<'_>> {
    let bars = &walked.bars[..CALLS];
    let bytes = &walked.bytes;
    vec![
        row("the repository's functions", CALLS, |s| repository(bars, s)),
        port_row("plain port", CALLS, |s| plain_port(bars, s)),
        row("jcc_label, the newest 64 bars", CALLS, |s| {
            exported(bytes, KEPT, s);
        }),
        row("jcc_label, the whole history", CALLS, |s| {
            exported(bytes, usize::MAX, s);
        }),
    ]
}

fn feeds(walked: &Walked) -> Vec<Row<'_>> {
    let prices = walked.prices(FEEDS);
    let few = walked.prices(FEW);
    let tallied = |size, sheet: &mut [u8]| tallied(size, prices, &walked.tally, sheet);
    vec![
        port_row("plain box, feeds of 4,096 bars", FEEDS, |s| {
            plain_box(4096, prices, s);
        }),
        row("jcc_feed, feeds of 4,096 bars", FEEDS, |s| {
            fed(4096, prices, s);
        }),
        tally_row("jcc_tally, feeds of 4,096 bars", FEEDS, move |s| {
            tallied(4096, s);
        }),
        Row {
            passes: FEEDS / FEW,
            ..row("jcc_feed, 10,000 of the bars", FEW, |s| fed(4096, few, s))
        },
        port_row("plain box, feeds of 64 bars", FEEDS, |s| {
            plain_box(64, prices, s);
        }),
        row("jcc_feed, feeds of 64 bars", FEEDS, |s| fed(64, prices, s)),
        tally_row("jcc_tally, feeds of 64 bars", FEEDS, move |s| {
            tallied(64, s);
        }),
        port_row("plain box, feeds of 1 bar", FEEDS, |s| {
            plain_box(1, prices, s);
        }),
        row("jcc_feed, feeds of 1 bar", FEEDS, |s| fed(1, prices, s)),
        tally_row("jcc_tally, feeds of 1 bar", FEEDS, move |s| tallied(1, s)),
    ]
}

/// Writes a bar's row, each pair as v1 × 256 + v2.
fn write(row: &mut [u8; ROW_BYTES], mut pair: impl FnMut(usize) -> u32) {
    for k in 0..RECOGNISERS {
        let [v1, v2] = (pair(k) as u16).to_be_bytes();
        row[2 * k] = v1;
        row[2 * k + 1] = v2;
    }
}

fn rows_of(sheet: &mut [u8]) -> impl Iterator<Item = &mut [u8; ROW_BYTES]> {
    sheet.as_chunks_mut().0.iter_mut()
}

/// The bars arrive one by one; each is judged as the newest.
fn repository(bars: &[Bar], sheet: &mut [u8]) {
    let mut oracle = Oracle::new();
    oracle.set_thresholds(&thresholds());
    for (bar, row) in bars.iter().zip(rows_of(sheet)) {
        oracle.push(bar);
        write(row, |k| oracle.label(k, 1));
    }
}

fn plain_port(bars: &[Bar], sheet: &mut [u8]) {
    let t = thresholds();
    for (count, row) in (1..=bars.len()).zip(rows_of(sheet)) {
        write(row, |k| port::label(k, 1, &t, &bars[..count]).number());
    }
}

/// Hands the export at most this many newest bars.
fn exported(bytes: &[u8], most: usize, sheet: &mut [u8]) {
    let t = thresholds();
    for (count, row) in (1..=bytes.len() / BAR_BYTES).zip(rows_of(sheet)) {
        let from = count.saturating_sub(most);
        let history = &bytes[from * BAR_BYTES..count * BAR_BYTES];
        write(row, |k| label_export::label(k as u32, 1, &t, history));
    }
}

fn plain_box(size: usize, prices: &[f64], sheet: &mut [u8]) {
    let fed = port::feed_in_parts(&thresholds(), &sizes(size, prices), prices, sheet);
    accepted(fed.err().unwrap_or(0));
}

fn fed(size: usize, prices: &[f64], sheet: &mut [u8]) {
    feed(exports::feed, size, prices, sheet);
}

/// The counts must be those of the tally.
fn tallied(size: usize, prices: &[f64], tally: &Tally, sheet: &mut [u8]) {
    let mut counts = [0; TALLY_COUNTS];
    let t = thresholds();
    let sizes = sizes(size, prices);
    accepted(exports::tally(&t, &sizes, prices, sheet, &mut counts));
    assert_eq!(counts, tally.numbers(), "the counts are the plain port's");
}
