//! Every refusal of a plain call, and their order.

use sodsundial_jcc::{
    label, label_bytes, label_number, Bar, Recogniser, Refusal, Thresholds, MOST_BARS,
};

const STANDARD: Thresholds = Thresholds::STANDARD;
const BAR: Bar = Bar::new(5.0, 6.0, 7.0, 4.0);

#[test]
fn unknown_recogniser() {
    for number in [18, 19, 255, 256, u32::MAX] {
        let refused = label_number(number, 1, &STANDARD, &[BAR]);
        assert_eq!(refused, Err(Refusal::Recogniser));
    }
    for number in 0..18 {
        assert!(label_number(number, 1, &STANDARD, &[BAR]).is_ok());
    }
}

#[test]
fn offset_of_0() {
    for recogniser in Recogniser::ALL {
        let refused = label(recogniser, 0, &STANDARD, &[BAR]);
        assert_eq!(refused, Err(Refusal::Offset));
    }
}

/// Thresholds with one of the two that are no whole numbers set, or one of the eleven others.
fn with_real(place: usize, value: f64) -> Thresholds {
    let mut t = STANDARD;
    *[&mut t.th0, &mut t.th8][place] = value;
    t
}

/// From this place on the whole numbers count tenths.
const TENTHS_FROM: usize = 9;

fn with_whole(place: usize, value: u32) -> Thresholds {
    let mut t = STANDARD;
    *[
        &mut t.z2,
        &mut t.th2,
        &mut t.z3,
        &mut t.th3,
        &mut t.zdf5,
        &mut t.th6,
        &mut t.zdf7,
        &mut t.zf8,
        &mut t.th10,
        &mut t.th13,
        &mut t.th14,
    ][place] = value;
    t
}

#[test]
fn thresholds() {
    // Every threshold is tried by every recogniser, its own or not.
    for recogniser in Recogniser::ALL {
        let given = |t: Thresholds| label(recogniser, 1, &t, &[BAR]);
        for place in 0..2 {
            for value in [0.0, -0.0, f64::MIN_POSITIVE, 2.0, 10_000.0] {
                assert!(given(with_real(place, value)).is_ok());
            }
            for value in [
                -f64::MIN_POSITIVE,
                -1.0,
                10_000.0_f64 + 2e-12,
                f64::INFINITY,
                f64::NEG_INFINITY,
                f64::NAN,
                -f64::NAN,
            ] {
                assert_eq!(given(with_real(place, value)), Err(Refusal::Threshold));
            }
        }
        for place in 0..11 {
            let most = if place < TENTHS_FROM {
                Thresholds::MOST_WHOLE
            } else {
                Thresholds::MOST_TENTHS
            };
            for value in [0, 1, most - 1, most] {
                assert!(given(with_whole(place, value)).is_ok());
            }
            for value in [most + 1, 1 << 31, u32::MAX] {
                assert_eq!(given(with_whole(place, value)), Err(Refusal::Threshold));
            }
        }
    }
}

#[test]
fn bytes_that_are_no_bars() {
    let bytes = [BAR; 3].map(Bar::to_bytes).concat();
    for len in 0..=bytes.len() {
        let answer = label_bytes(1, 1, &STANDARD, &bytes[..len]);
        if len % 32 == 0 {
            assert!(answer.is_ok());
        } else {
            assert_eq!(answer, Err(Refusal::Bytes));
        }
    }
}

#[test]
fn more_bars_than_a_history_has() {
    let bars = vec![BAR; MOST_BARS + 1];
    for recogniser in Recogniser::ALL {
        let refused = label(recogniser, 1, &STANDARD, &bars);
        assert_eq!(refused, Err(Refusal::History));
        assert!(label(recogniser, 1, &STANDARD, &bars[1..]).is_ok());
        assert!(label(recogniser, MOST_BARS as u32, &STANDARD, &bars[1..]).is_ok());
    }
}

/// The first that applies is given.
#[test]
fn order() {
    let bad = with_whole(0, u32::MAX);
    let long = vec![0; 32 * MOST_BARS + 33];
    let given = |number, offset, t| label_bytes(number, offset, t, &long).map_err(Refusal::number);
    assert_eq!(given(18, 0, &bad), Err(1));
    assert_eq!(given(17, 0, &bad), Err(2));
    assert_eq!(given(17, 1, &bad), Err(3));
    assert_eq!(given(17, 1, &STANDARD), Err(4));
    let whole = &long[..32 * MOST_BARS + 32];
    assert_eq!(label_bytes(17, 1, &STANDARD, whole), Err(Refusal::History));
}

#[test]
fn a_refusal_is_an_error() {
    fn newest() -> Result<String, Box<dyn std::error::Error>> {
        Ok(label_number(18, 1, &STANDARD, &[BAR])?.to_string())
    }
    let error = newest().expect_err("there is no recogniser 18");
    assert_eq!(error.to_string(), "refusal 1: the recogniser is above 17");
}
