//! The changes of a window of some size. Places are counted from its first bar on, four to a
//! bar.

pub const NAN: f64 = f64::NAN;
pub const INF: f64 = f64::INFINITY;

/// Prices to put in, by their places.
pub type Change = Vec<(usize, f64)>;

/// The prices that are put in.
const ODD: [f64; 5] = [NAN, 0.0, -0.0, INF, -INF];

/// What the highs or the lows of a middle become, in turn from its oldest bar.
const COLUMNS: [[f64; 2]; 5] = [
    [NAN, NAN],
    [INF, INF],
    [-INF, -INF],
    [0.0, -0.0],
    [-0.0, 0.0],
];

/// The places of the first bar's prices.
pub const OPEN: usize = 0;
pub const CLOSE: usize = 1;
const HIGH: usize = 2;
const LOW: usize = 3;

/// The place of one of the last bar's prices.
pub fn last(size: usize, price: usize) -> usize {
    4 * (size - 1) + price
}

/// The places of one price of the middle's bars.
fn column(size: usize, price: usize) -> Vec<usize> {
    (1..size - 1).map(|bar| 4 * bar + price).collect()
}

/// The places of the middle's highs and lows.
fn extremes(size: usize) -> Vec<usize> {
    [column(size, HIGH), column(size, LOW)].concat()
}

/// Changes in one place, and in whole columns.
pub fn few(size: usize) -> Vec<Change> {
    [one_place(size), columns(size), all_but_one(size)].concat()
}

/// Changes in two places, and in the bounds.
pub fn many(size: usize) -> Vec<Change> {
    [two_places(size), bounds(size)].concat()
}

/// NaN in each of the middle's extremes, and columns of NaN and of zeros. For 4, whose folds pass over
/// NaN, also the infinity that spoils them. For 17 also NaN in the extremes of the first and the last
/// bar, which it does not read, and columns of the infinity that is beyond every bound.
pub fn listed(size: usize, recogniser: usize) -> Vec<Change> {
    let mut changes = Vec::new();
    for (price, far) in [(HIGH, INF), (LOW, -INF)] {
        let put = |place, value| vec![(place, value)];
        let places = column(size, price);
        changes.extend(places.iter().map(|place| put(*place, NAN)));
        changes.push(whole_column(size, price, [NAN, NAN]));
        changes.push(whole_column(size, price, [0.0, -0.0]));
        if recogniser == 4 {
            changes.extend(places.iter().map(|place| put(*place, far)));
        } else {
            changes.extend([price, last(size, price)].map(|place| put(place, NAN)));
            changes.push(whole_column(size, price, [-far, -far]));
        }
    }
    changes
}

/// Any price of the window.
fn one_place(size: usize) -> Vec<Change> {
    (0..4 * size).flat_map(odd_at).collect()
}

/// All highs of the middle, all lows, or all of both.
fn columns(size: usize) -> Vec<Change> {
    let whole = |price| COLUMNS.map(|values| whole_column(size, price, values));
    both(&maybe(whole(HIGH)), &maybe(whole(LOW)))
}

fn whole_column(size: usize, price: usize, values: [f64; 2]) -> Change {
    let values = values.into_iter().cycle();
    column(size, price).into_iter().zip(values).collect()
}

/// NaN for all highs but one, or all lows but one, and that one changed too.
fn all_but_one(size: usize) -> Vec<Change> {
    let mut changes = Vec::new();
    for price in [HIGH, LOW] {
        for kept in column(size, price) {
            let mut others = whole_column(size, price, [NAN, NAN]);
            others.retain(|(place, _)| *place != kept);
            changes.extend(both(&[others], &maybe(odd_at(kept))));
        }
    }
    changes
}

/// Two of the middle's extremes and the first bar's, with which 4 compares them.
fn two_places(size: usize) -> Vec<Change> {
    let places = [vec![HIGH, LOW], extremes(size)].concat();
    let mut changes = Vec::new();
    for (i, one) in places.iter().enumerate() {
        for other in &places[i + 1..] {
            changes.extend(both(&odd_at(*one), &odd_at(*other)));
        }
    }
    changes
}

/// The first bar's open and the last one's close, and with them one of the middle's extremes.
fn bounds(size: usize) -> Vec<Change> {
    let open = maybe(odd_at(OPEN));
    let close = maybe(odd_at(last(size, CLOSE)));
    let extremes = extremes(size).into_iter().flat_map(odd_at);
    both(&both(&open, &close), &maybe(extremes))
}

/// Each odd price in one place.
fn odd_at(place: usize) -> Vec<Change> {
    ODD.map(|price| vec![(place, price)]).to_vec()
}

/// These changes, and none.
fn maybe(changes: impl IntoIterator<Item = Change>) -> Vec<Change> {
    let mut all = vec![Vec::new()];
    all.extend(changes);
    all
}

/// Each of the ones with each of the others.
fn both(ones: &[Change], others: &[Change]) -> Vec<Change> {
    let mut changes = Vec::new();
    for one in ones {
        for other in others {
            changes.push([one.as_slice(), other].concat());
        }
    }
    changes
}
