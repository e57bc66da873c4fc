//! A price in a text line: `nan`, or an optional minus, 1 to 9 digits, and optionally a point and
//! 1 to 6 digits.

use crate::refusal::Refusal;
use jcc_types::Bar;

const MOST_WHOLE: usize = 9;
const MOST_DECIMALS: usize = 6;

const NAN: f64 = f64::from_bits(0x7FF8_0000_0000_0000);

/// The powers of ten that a price is divided by.
const POWERS: [f64; MOST_DECIMALS + 1] = [1.0, 10.0, 100.0, 1e3, 1e4, 1e5, 1e6];

/// The bar of a line: open, close, high, low. The fields are counted before a price is read.
pub fn bar(line: &[u8]) -> Result<Bar, Refusal> {
    let mut fields = line.split(|byte| *byte == b',');
    let mut next = || fields.next().ok_or(Refusal::SHAPE);
    let four = [next()?, next()?, next()?, next()?];
    if fields.next().is_some() {
        return Err(Refusal::SHAPE);
    }
    let value = |field: usize| price(four[field]).ok_or(Refusal::price(field + 1));
    Ok(Bar::new(value(0)?, value(1)?, value(2)?, value(3)?))
}

pub fn price(text: &[u8]) -> Option<f64> {
    if text == b"nan" {
        return Some(NAN);
    }
    let (is_negative, text) = match text.strip_prefix(b"-") {
        Some(rest) => (true, rest),
        None => (false, text),
    };
    let value = unsigned(text)?;
    Some(if is_negative { -value } else { value })
}

/// All digits are one whole number below 10^15, which a float holds; the division is the only
/// rounding.
fn unsigned(text: &[u8]) -> Option<f64> {
    let (whole, decimals) = match text.iter().position(|byte| *byte == b'.') {
        Some(point) => (&text[..point], Some(&text[point + 1..])),
        None => (text, None),
    };
    let mut number = digits(0, whole, MOST_WHOLE)?;
    let mut power = 0;
    if let Some(decimals) = decimals {
        number = digits(number, decimals, MOST_DECIMALS)?;
        power = decimals.len();
    }
    Some(number as f64 / POWERS[power])
}

/// The number with at least one and at most so many digits behind it.
fn digits(number: u64, text: &[u8], most: usize) -> Option<u64> {
    if text.is_empty() || text.len() > most {
        return None;
    }
    text.iter().try_fold(number, |number, byte| {
        let digit = byte.is_ascii_digit().then(|| byte - b'0')?;
        Some(10 * number + u64::from(digit))
    })
}

#[cfg(test)]
mod tests {
    use super::*;

    fn bits(text: &str) -> Option<u64> {
        price(text.as_bytes()).map(f64::to_bits)
    }

    #[test]
    fn good_prices() {
        let equal = |text, value: f64| assert_eq!(bits(text), Some(value.to_bits()), "{text}");
        equal("0", 0.0);
        equal("-0", -0.0);
        equal("-0.000000", -0.0);
        equal("5", 5.0);
        equal("007.50", 7.5);
        equal("0.1", 0.1);
        equal("0.100000", 0.1);
        equal("0.3", 0.3);
        equal("-123456789.654321", -123456789.654321);
        equal("999999999.999999", 999999999.999999);
        equal("000000000.000001", 0.000001);
        assert_eq!(bits("nan"), Some(0x7FF8_0000_0000_0000));
    }

    #[test]
    fn no_prices() {
        for text in [
            "",
            "-",
            "--1",
            "+1",
            ".5",
            "5.",
            ".",
            "-.5",
            "-5.",
            "1.2.3",
            "1e5",
            "NaN",
            "Nan",
            "-nan",
            "nan ",
            "nann",
            "inf",
            " 1",
            "1 ",
            "1-",
            "0x1",
            "1_0",
            "1234567890",
            "1.1234567",
            "1\0",
            "\u{661}",
        ] {
            assert_eq!(bits(text), None, "{text:?}");
        }
    }

    #[test]
    fn lines() {
        assert!(bar(b"1,2,3,4").is_ok());
        for line in ["", "1", "1,2,3", "1,2,3,4,", "1,2,3,4,5", "x", ",,", ",,,,"] {
            assert_eq!(bar(line.as_bytes()).err(), Some(Refusal::SHAPE), "{line:?}");
        }
        for (line, place) in [
            (",1,2,3", 1),
            ("1,,,3", 2),
            ("1,2,x,4", 3),
            ("1,2,3,", 4),
            ("1,2,3,4\r", 4),
        ] {
            let refusal = Refusal::price(place);
            assert_eq!(bar(line.as_bytes()).err(), Some(refusal), "{line:?}");
        }
    }
}
