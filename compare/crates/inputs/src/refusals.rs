//! Calls that are refused, alone and in combination, so that the order of refusals is tried too;
//! and their neighbours that are not.

use jcc_types::{BAR_BYTES, BAR_PRICES, MAX_BARS, MOST_OFFSET, ROW_BYTES, Thresholds};

/// Recognisers: the first and last, and those above.
pub const RECOGNISERS: [u32; 6] = [0, 17, 18, 19, 1 << 31, u32::MAX];

/// Offsets: the refused one, and others.
pub const OFFSETS: [u32; 4] = [0, 1, 22, u32::MAX];

/// Offsets of looks: the refused ones, their neighbours, and others.
pub const LOOK_OFFSETS: [u32; 8] = [
    0,
    1,
    22,
    MOST_OFFSET,
    MOST_OFFSET + 1,
    MOST_OFFSET + 2,
    1 << 31,
    u32::MAX,
];

/// Byte lengths: whole bars and not, up to and above the most bars.
pub fn byte_lengths() -> Vec<usize> {
    let most = MAX_BARS * BAR_BYTES;
    let mut lengths: Vec<usize> = (0..=2 * BAR_BYTES + 1).collect();
    lengths.extend([64 * BAR_BYTES, 64 * BAR_BYTES + 8, 64 * BAR_BYTES + 31]);
    lengths.extend([most - BAR_BYTES, most - 1, most, most + 1, most + 31]);
    lengths.extend([most + BAR_BYTES, most + BAR_BYTES + 1]);
    lengths
}

/// How many prices a feed may have: whole bars and not, up to and above the most bars.
pub fn price_counts() -> Vec<usize> {
    let most = MAX_BARS * BAR_PRICES;
    let mut counts: Vec<usize> = (0..=2 * BAR_PRICES + 1).collect();
    counts.extend(64 * BAR_PRICES..=65 * BAR_PRICES);
    counts.extend(most - 1..=most + BAR_PRICES + 1);
    counts
}

/// Bytes of a sheet for so many bars: too short, just long enough, and longer.
pub fn sheet_lengths(bars: usize) -> Vec<usize> {
    let enough = bars * ROW_BYTES;
    let mut lengths = vec![
        0,
        enough.saturating_sub(ROW_BYTES),
        enough.saturating_sub(1),
    ];
    lengths.extend([enough, enough + 1, enough + ROW_BYTES]);
    lengths
}

/// The greatest whole thresholds of both kinds and the numbers above them, tried in every place: what
/// is too much for one kind may be little for the other.
const WHOLES: [u32; 6] = [
    Thresholds::MOST_WHOLE,
    Thresholds::MOST_WHOLE + 1,
    Thresholds::MOST_TENTHS,
    Thresholds::MOST_TENTHS + 1,
    1 << 31,
    u32::MAX,
];

/// Numbers that are no threshold of 0 or 8, NaN of several kinds among them, and some that are.
fn reals() -> Vec<f64> {
    let nan = [
        0x7FF8_0000_0000_0000,
        0xFFF8_0000_0000_0000,
        0x7FF0_0000_0000_0001,
        0xFFFF_FFFF_FFFF_FFFF,
    ];
    let mut reals: Vec<f64> = nan.into_iter().map(f64::from_bits).collect();
    reals.extend([f64::INFINITY, f64::NEG_INFINITY, f64::MAX, -1.0]);
    let most = Thresholds::MOST_REAL;
    reals.extend([-f64::from_bits(1), most.next_up(), most + 0.5]);
    reals.extend([-0.0, f64::from_bits(1), most]);
    reals
}

/// The standard set, and sets with one threshold at or outside its limits.
pub fn thresholds() -> Vec<Thresholds> {
    let standard = Thresholds::STANDARD;
    let mut sets = vec![standard];
    for real in reals() {
        for i in 0..2 {
            let mut changed = standard.reals();
            changed[i] = real;
            sets.push(Thresholds::from_parts(changed, standard.wholes()));
        }
    }
    for whole in WHOLES {
        for i in 0..Thresholds::WHOLE {
            let mut changed = standard.wholes();
            changed[i] = whole;
            sets.push(Thresholds::from_parts(standard.reals(), changed));
        }
    }
    sets
}
