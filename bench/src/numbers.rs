//! The calls that hand out a number, asked of the engine and of the oracle: the ordered product and the figure. The
//! number must be the same to the bit, each NaN the one NaN, and a refused call leaves its place as it was.

use crate::generate::reduce::Call;
use crate::tally::Tally;
use crate::{probe, rules};
use std::num::FpCategory;

/// What an answer's place holds before a call, as bits.
const BEFORE: u64 = 0xa5a5_0123_4567_5a5a;

/// A call by the rules, and the engine's.
struct Pair {
    name: &'static str,
    oracle: fn(&[u64], &[i64], &rules::Range, &[f64]) -> Result<f64, u32>,
    engine: fn(&probe::Range, &[f64], &mut f64) -> u32,
}

const PAIRS: [Pair; 2] = [
    Pair { name: "ordered product", oracle: rules::ordered, engine: probe::ordered_into },
    Pair { name: "figure", oracle: rules::figure, engine: probe::figure_into },
];

/// Both calls. What differs is the error.
pub fn ask(tally: &mut Tally, call: &Call, values: &[f64]) -> Result<(), String> {
    let bad = rules::reduce(&call.axes.sizes, &call.axes.strides, &call.range, values).is_ok_and(|acc| acc.bad);
    for pair in &PAIRS {
        let answer = (pair.oracle)(&call.axes.sizes, &call.axes.strides, &call.range, values);
        let expected = match answer {
            Ok(number) => (0, number.to_bits()),
            Err(code) => (code, BEFORE),
        };
        let mut place = f64::from_bits(BEFORE);
        let code = (pair.engine)(&probe::Range::of(call), values, &mut place);
        let found = (code, place.to_bits());
        if found != expected {
            let (name, text) = (pair.name, call.text());
            return Err(format!("the {name} of {text}\nthe oracle gives {expected:x?}, the engine {found:x?}"));
        }
        let mark = if bad { ", bad" } else { "" };
        tally.count(format!("{}, {}{mark}", pair.name, kind(answer)));
    }
    Ok(())
}

fn kind(answer: Result<f64, u32>) -> String {
    String::from(match answer.map(f64::classify) {
        Ok(FpCategory::Normal) => "normal",
        Ok(FpCategory::Subnormal) => "subnormal",
        Ok(FpCategory::Zero) => "zero",
        Ok(FpCategory::Infinite) => "infinite",
        Ok(FpCategory::Nan) => "NaN",
        Err(code) => return format!("refused {code}"),
    })
}
