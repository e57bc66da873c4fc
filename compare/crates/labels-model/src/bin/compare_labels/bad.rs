//! Inputs that may be refused: bad lines, bad places, single bytes changed.

use crate::good;
use inputs::rng::Rng;

/// Texts that are no price, by kind.
const FIELDS: [(&str, &[&[u8]]); 9] = [
    ("nothing", &[b""]),
    (
        "sign",
        &[b"+1", b"--1", b"-", b"1-", b"-+1", b"- 1", b"\xE2\x88\x921"],
    ),
    (
        "space",
        &[b" 1", b"1 ", b" ", b"\t1", b"1\x0B", b"1\r", b"\xC2\xA01"],
    ),
    ("exponent", &[b"1e5", b"1E5", b"1e-5", b"1e", b"e"]),
    (
        "name",
        &[
            b"NaN",
            b"NAN",
            b"Nan",
            b"-nan",
            b"+nan",
            b"nan0",
            b"nann",
            b"na",
            b"n",
            b"nan.",
            b"inf",
            b"-inf",
            b"Infinity",
            b"null",
            b"open",
        ],
    ),
    (
        "point",
        &[
            b".5", b"5.", b".", b"-.5", b"-5.", b"1.2.3", b"1..2", b"1.-2", b"..", b"1.nan",
        ],
    ),
    (
        "length",
        &[
            b"1234567890",
            b"0000000001",
            b"-1234567890",
            b"1234567890.5",
            b"1.1234567",
            b"1.0000000",
            b"123456789.1234567",
            b"18446744073709551617",
            b"1.18446744073709551617",
        ],
    ),
    (
        "letter",
        &[
            b"0x10", b"1_000", b"1f", b"O", b"1O", b"$1", b"\"1\"", b"1:2", b"1/2", b"1;2",
        ],
    ),
    (
        "byte",
        &[
            b"\0",
            b"1\0",
            b"\x001",
            b"\xFF",
            b"1\x80",
            b"\xC3",
            b"\xED\xA0\x80",
            b"\xEF\xBB\xBF1",
            b"\xEF\xBC\x91",
            b"\xD9\xA3",
            b"\xB1",
            b"\x7F",
        ],
    ),
];

/// Lines that are not four fields, and lines with several bad ones.
const LINES: [&[u8]; 24] = [
    b"",
    b"5",
    b"5,6",
    b"5,6,7",
    b"5,6,7,",
    b",5,6,7",
    b"5,6,7,4,",
    b"5,6,7,4,4",
    b",,,",
    b",,,,",
    b",",
    b"5;6;7;4",
    b"5 6 7 4",
    b"5,,6,7,4",
    b"nan",
    b"# 5,6,7,4",
    b"O,O,O",
    b"O,O,O,O",
    b"O,O,O,O,O",
    b"5,O,O,4",
    b"5,6,O,O",
    b"5,O,7,O",
    b"O,6,7,O",
    b"5,6,O,4,",
];

/// Every bad line that has no random part.
pub fn lines() -> Vec<Vec<u8>> {
    let mut lines: Vec<Vec<u8>> = LINES.iter().map(|line| line.to_vec()).collect();
    for text in FIELDS.iter().flat_map(|(_, texts)| *texts) {
        for field in 0..4 {
            lines.push(with_field(text, field));
        }
    }
    lines
}

fn with_field(text: &[u8], field: usize) -> Vec<u8> {
    let mut fields: [&[u8]; 4] = [b"5", b"6", b"7", b"4"];
    fields[field] = text;
    fields.join(&b',')
}

fn any_line(rng: &mut Rng) -> Vec<u8> {
    match rng.below(4) {
        0 => rng.pick(&LINES).to_vec(),
        1 => long_line(rng),
        _ => {
            let (_, texts) = FIELDS[rng.below(FIELDS.len())];
            with_field(rng.pick(texts), rng.below(4))
        }
    }
}

/// Around the lengths that matter: the longest good line has 71 bytes, the longest line 80.
fn long_line(rng: &mut Rng) -> Vec<u8> {
    let length = match rng.below(8) {
        0 => rng.between(72, 90),
        1 => rng.between(100, 70_000),
        _ => rng.between(69, 83),
    };
    if rng.one_in(2) {
        four_fields(length, rng.below(4), rng.pick(b"0 O"))
    } else {
        line_of(length, rng.below(FILLS))
    }
}

/// Four fields of so many bytes in all, one of which takes what the others leave.
pub fn four_fields(length: usize, field: usize, fill: u8) -> Vec<u8> {
    with_field(&vec![fill; length.saturating_sub(6)], field)
}

/// What a line of a given length is made of.
pub const FILLS: usize = 7;

pub fn line_of(length: usize, fill: usize) -> Vec<u8> {
    let piece: &[u8] = match fill {
        0 => b"1",
        1 => b",",
        2 => b"\0",
        3 => b"\xFF",
        4 => b"5,6,7,4,",
        5 => b"-123456789.654321,",
        _ => b" ",
    };
    piece.iter().copied().cycle().take(length).collect()
}

/// A good input with a bad line first, last or anywhere, with a line feed behind it or at the end.
pub fn random(rng: &mut Rng) -> Vec<u8> {
    let good = good::random(rng);
    let bad = any_line(rng);
    let mut lines: Vec<&[u8]> = good.split_inclusive(|byte| *byte == b'\n').collect();
    let place = match rng.below(4) {
        0 => 0,
        1 => lines.len(),
        _ => rng.between(0, lines.len()),
    };
    let is_last = place == lines.len();
    lines.insert(place, &bad);
    let end: &[u8] = rng.pick(&[b"\n", b"\n", b"\n", b"\r\n"]);
    if !is_last || !rng.one_in(3) {
        lines.insert(place + 1, end);
    }
    lines.concat()
}

/// A good input with one to three bytes put in, taken out or changed; good or not.
pub fn mutated(rng: &mut Rng) -> Vec<u8> {
    let mut input = good::random(rng);
    for _ in 0..rng.pick(&[1, 1, 1, 2, 3]) {
        let place = rng.below(input.len());
        match rng.below(4) {
            0 => {
                input.remove(place);
            }
            1 => input.insert(place, byte(rng)),
            2 => input[place] = byte(rng),
            _ => {
                let other = rng.below(input.len());
                input.swap(place, other);
            }
        }
        if input.is_empty() {
            break;
        }
    }
    input
}

/// Mostly a byte that can stand in a line.
fn byte(rng: &mut Rng) -> u8 {
    if rng.one_in(4) {
        rng.word() as u8
    } else {
        rng.pick(b"0123456789-.,\nan")
    }
}

/// A good input that ends too early, or without its last line feed.
pub fn cut(rng: &mut Rng) -> Vec<u8> {
    let mut input = good::random(rng);
    let less = match rng.below(3) {
        0 => 1,
        1 => rng.between(1, 30),
        _ => rng.between(1, input.len()),
    };
    input.truncate(input.len().saturating_sub(less));
    input
}

/// Bytes of the grammar, or any.
pub fn garbage(rng: &mut Rng) -> Vec<u8> {
    let few = rng.one_in(2);
    let count = rng.between(0, 200);
    (0..count)
        .map(|_| {
            if few {
                rng.pick(b"0159-.,,,\n\nnan")
            } else {
                rng.word() as u8
            }
        })
        .collect()
}
