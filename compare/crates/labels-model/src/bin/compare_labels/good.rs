//! Inputs of good lines.

use inputs::Case;
use inputs::families::PIECES;
use inputs::histories;
use inputs::rng::Rng;
use inputs::walk::{Walk, small_bar};
use jcc_types::Bar;
use std::fmt::Write;

/// The most digits before and after the point.
pub const WHOLE: usize = 9;
pub const DECIMALS: usize = 6;

/// The greatest price, and so what stands for those beyond it.
const MOST: f64 = 999_999_999.0;

/// How the prices of a history are written.
#[derive(Clone, Copy)]
struct Style {
    /// Prices are divided by this first: ties of whole numbers become ties of fractions.
    divisor: f64,
    decimals: usize,
    /// Whether one value is written in several ways.
    is_mixed: bool,
}

impl Style {
    fn random(rng: &mut Rng) -> Style {
        let divisor = rng.pick(&[1.0, 1.0, 10.0, 100.0, 1e3, 1e6]);
        Style {
            divisor,
            decimals: rng.between(0, DECIMALS),
            is_mixed: rng.one_in(2),
        }
    }
}

/// A random input: lines, each with a line feed.
pub fn random(rng: &mut Rng) -> Vec<u8> {
    let count = match rng.below(4) {
        0 => rng.between(1, 30),
        1 => rng.pick(&[1, 2, 21, 22, 23, 24, 25, 63, 64, 65, 66, 129]),
        _ => rng.between(20, 120),
    };
    match rng.below(8) {
        0 => any_digits(rng, count),
        1 => lattice(rng, count),
        2 => flat(rng, count),
        _ => family(rng, count),
    }
}

/// A history of the comparison of feeds, as text.
fn family(rng: &mut Rng, count: usize) -> Vec<u8> {
    let family = &PIECES[rng.below(PIECES.len())];
    let mut case = Case::new();
    histories::of_length(rng, family, count, &mut case);
    lines(rng, &case.bars)
}

/// Neighbouring decimals, near zero or near the greatest price.
fn lattice(rng: &mut Rng, count: usize) -> Vec<u8> {
    let style = Style {
        divisor: rng.pick(&[10.0, 100.0, 1e3]),
        decimals: 3,
        is_mixed: rng.one_in(2),
    };
    let base = rng.pick(&[-3, 0, 1, 97, 1000, 99_999_990]);
    let span = rng.between(2, 20) as i32;
    let regular = !rng.one_in(4);
    let bars: Vec<Bar> = (0..count)
        .map(|_| small_bar(rng, base, span, regular))
        .collect();
    styled(rng, &bars, style)
}

/// Bars of one price, with others among them.
fn flat(rng: &mut Rng, count: usize) -> Vec<u8> {
    let mut price = rng.whole(-5, 5);
    let bars: Vec<Bar> = (0..count)
        .map(|_| {
            if rng.one_in(5) {
                price = rng.whole(-5, 5);
            }
            if rng.one_in(6) {
                small_bar(rng, -5, 11, true)
            } else {
                Bar::from_prices([price; 4])
            }
        })
        .collect();
    lines(rng, &bars)
}

/// Prices of any form.
fn any_digits(rng: &mut Rng, count: usize) -> Vec<u8> {
    let mut text = String::new();
    for _ in 0..count {
        for field in 0..4 {
            let form = rng.below(FORMS);
            push_form(rng, form, &mut text);
            text.push(if field < 3 { ',' } else { '\n' });
        }
    }
    text.into_bytes()
}

/// The forms of a price: with or without a minus, the digits before the point, the digits after it;
/// and nan.
pub const FORMS: usize = 2 * WHOLE * (DECIMALS + 1) + 1;

pub fn push_form(rng: &mut Rng, form: usize, text: &mut String) {
    if form == FORMS - 1 {
        text.push_str("nan");
        return;
    }
    if form.is_multiple_of(2) {
        text.push('-');
    }
    let form = form / 2;
    push_digits(rng, form % WHOLE + 1, text);
    let decimals = form / WHOLE;
    if decimals > 0 {
        text.push('.');
        push_digits(rng, decimals, text);
    }
}

fn push_digits(rng: &mut Rng, count: usize, text: &mut String) {
    // All nines and all zeros are as likely as others.
    let only = rng.pick(&[Some('9'), Some('0'), None, None, None, None]);
    for _ in 0..count {
        text.push(only.unwrap_or_else(|| char::from(b'0' + rng.below(10) as u8)));
    }
}

/// Every form in every field.
pub fn every_form(rng: &mut Rng) -> Vec<u8> {
    let mut text = String::new();
    for line in 0..FORMS {
        for field in 0..4 {
            push_form(rng, (line + 31 * field) % FORMS, &mut text);
            text.push(if field < 3 { ',' } else { '\n' });
        }
    }
    text.into_bytes()
}

/// So many lines of a walk in cents.
pub fn walk(rng: &mut Rng, count: usize) -> Vec<u8> {
    let mut walk = Walk::market();
    let mut text = String::with_capacity(28 * count);
    for _ in 0..count {
        push_cents(&walk.bar(rng), &mut text);
    }
    text.into_bytes()
}

fn push_cents(bar: &Bar, text: &mut String) {
    let [open, close, high, low] = bar.prices();
    writeln!(text, "{open:.2},{close:.2},{high:.2},{low:.2}").expect("text grows");
}

/// So many lines of small whole numbers: many labels.
pub fn small(rng: &mut Rng, count: usize) -> Vec<u8> {
    let mut text = String::with_capacity(9 * count);
    for _ in 0..count {
        let [open, close, high, low] = small_bar(rng, 0, 9, true).prices();
        writeln!(text, "{open},{close},{high},{low}").expect("text grows");
    }
    text.into_bytes()
}

fn lines(rng: &mut Rng, bars: &[Bar]) -> Vec<u8> {
    let style = Style::random(rng);
    styled(rng, bars, style)
}

fn styled(rng: &mut Rng, bars: &[Bar], style: Style) -> Vec<u8> {
    let mut text = String::new();
    for bar in bars {
        for (field, price) in bar.prices().into_iter().enumerate() {
            push_price(rng, price, style, &mut text);
            text.push(if field < 3 { ',' } else { '\n' });
        }
    }
    text.into_bytes()
}

/// The price with so many decimals. In a mixed style zeros are put before and after it or taken off
/// behind the point, which leaves its value.
fn push_price(rng: &mut Rng, price: f64, style: Style, text: &mut String) {
    if price.is_nan() {
        text.push_str("nan");
        return;
    }
    let size = (price / style.divisor).abs().min(MOST);
    let mut digits = format!("{size:.*}", style.decimals);
    if style.is_mixed {
        if style.decimals > 0 && rng.one_in(3) {
            digits.truncate(digits.trim_end_matches('0').trim_end_matches('.').len());
        } else if rng.one_in(3) {
            let decimals = rng.between(style.decimals.max(1), DECIMALS);
            if style.decimals == 0 {
                digits.push('.');
            }
            (style.decimals..decimals).for_each(|_| digits.push('0'));
        }
        if rng.one_in(4) {
            let whole = digits.find('.').unwrap_or(digits.len());
            let zeros = rng.between(0, WHOLE - whole);
            digits.insert_str(0, &"0".repeat(zeros));
        }
    }
    if price.is_sign_negative() {
        text.push('-');
    }
    text.push_str(&digits);
}
