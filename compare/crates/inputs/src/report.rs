//! The text of a plain call that is answered in different ways.

use crate::{Case, list};
use jcc_types::{Answer, NAMES};
use std::fmt::{self, Write};

/// The call with its answers, in words and as lines of a list, with which it can be replayed.
pub fn call(k: u32, offset: u32, case: &Case, answers: &[(&str, u32)]) -> String {
    let mut text = String::new();
    write_words(&mut text, k, offset, case, answers).expect("text grows");
    text.push_str("The same as lines of a list:\n");
    list::history(&mut text, &case.bars);
    list::thresholds(&mut text, &case.thresholds);
    list::call(&mut text, k, offset);
    text
}

fn write_words(
    text: &mut String,
    k: u32,
    offset: u32,
    case: &Case,
    answers: &[(&str, u32)],
) -> fmt::Result {
    let name = NAMES.get(k as usize).copied().unwrap_or("none");
    writeln!(text, "recogniser {k} ({name}), offset {offset}")?;
    for (who, number) in answers {
        writeln!(text, "{who}: {number} ({})", Answer(*number))?;
    }
    writeln!(text, "{:?}", case.thresholds)?;
    for bar in &case.bars {
        let [open, close, high, low] = bar.prices();
        writeln!(text, "{open:?}/{close:?}/{high:?}/{low:?}")?;
    }
    Ok(())
}
