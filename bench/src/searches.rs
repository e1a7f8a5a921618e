//! The search for the first bad rate, asked of the engine and of the oracle, which goes through what the Rust's own
//! loop visits: the element number, the offset, and what the places hold that are not written.

use crate::generate::reduce::Call;
use crate::probe::{self, BadPlace};
use crate::rules;
use crate::tally::Tally;

/// What the places hold before a call.
pub const BEFORE: BadPlace = BadPlace { found: 1, element: u64::MAX, offset: i64::MIN };

/// The code, and the places after the call, by the rules.
pub fn expected(sizes: &[u64], strides: &[i64], range: &rules::Range, values: &[f64]) -> (u32, BadPlace) {
    match rules::first_bad_rate(sizes, strides, range, values) {
        Err(code) => (code, BEFORE),
        Ok(None) => (0, BadPlace { found: 0, ..BEFORE }),
        Ok(Some(bad)) => (0, BadPlace { found: 1, element: bad.element, offset: bad.offset }),
    }
}

/// What differs is the error.
pub fn ask(tally: &mut Tally, call: &Call, values: &[f64]) -> Result<(), String> {
    let expected = expected(&call.axes.sizes, &call.axes.strides, &call.range, values);
    let mut place = BEFORE;
    let code = probe::first_into(&probe::Range::of(call), values, &mut place);
    let found = (code, place);
    if found != expected {
        let text = call.text();
        return Err(format!("the first bad rate of {text}\nthe oracle gives {expected:?}, the engine {found:?}"));
    }
    let kind = match found {
        (0, BadPlace { found: 0, .. }) => String::from("no bad rate"),
        (0, _) => String::from("a bad rate"),
        (code, _) => format!("refused {code}"),
    };
    tally.count(kind);
    Ok(())
}
