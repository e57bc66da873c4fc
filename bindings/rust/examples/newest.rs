//! Prints what the recognisers find at each bar of a small history.
//!
//!     cargo run --example newest

use sodsundial_jcc::{label, Bar, Label, Recogniser, Refusal, Thresholds};

fn main() -> Result<(), Refusal> {
    // open, close, high, low; the oldest bar first
    let bars = [
        Bar::new(20.0, 16.0, 21.0, 15.0),
        Bar::new(17.0, 13.0, 18.0, 12.0),
        Bar::new(14.0, 10.0, 15.0, 9.0),
        Bar::new(8.0, 16.0, 16.5, 7.5),
        Bar::new(12.0, 11.0, 15.0, 9.5),
    ];
    for count in 1..=bars.len() {
        let history = &bars[..count];
        for recogniser in Recogniser::ALL {
            let pair = label(recogniser, 1, &Thresholds::STANDARD, history)?;
            if pair.v1 != Label::Other {
                println!("bar {count}: {recogniser:16} {pair}");
            }
        }
    }
    Ok(())
}
