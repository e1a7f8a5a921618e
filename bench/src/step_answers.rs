//! Steps of a few pieces, asked of the engine and of the oracle: the code, the bookmark, how many pieces were worked,
//! whether the range is done, and what the places hold that are not written. And callers' loops of such steps, which must
//! end after as many calls as the rules say, with the accumulator of the unbroken reduction.

use crate::generate::reduce::Call;
use crate::generate::{step as drawn, Dice};
use crate::job;
use crate::probe::{self, Bits, Place, StepPlace};
use crate::rules;
use crate::steps::{self, Bookmark, StepResult};
use crate::tally::Tally;

/// What the places of a call hold before it, beside the bookmark: no call gives such a count.
const PIECES_BEFORE: u64 = u64::MAX;
const DONE_BEFORE: u8 = 1;

/// A range of more elements is not gone through by a loop of calls.
const MOST_ELEMENTS: u64 = 5000;

/// The code, and what the places hold after the call.
type Answer = (u32, u64, Bits, u64, u8);

fn place_of(from: &Bookmark) -> StepPlace {
    let acc = Place { m: from.acc.m, e: from.acc.e, bad: u8::from(from.acc.bad) };
    StepPlace { next: from.next, acc, pieces: PIECES_BEFORE, done: DONE_BEFORE }
}

fn answer(code: u32, place: StepPlace) -> Answer {
    (code, place.next, place.acc.bits(), place.pieces, place.done)
}

fn expected(call: &Call, values: &[f64], from: &Bookmark, n: u64) -> Answer {
    match steps::step(&call.axes.sizes, &call.axes.strides, &call.range, values, from, n) {
        Err(code) => answer(code, place_of(from)),
        Ok(StepResult { to, pieces, done }) => {
            // Where the range is done, the next element number stays.
            let next = if done { from.next } else { to.next };
            (0, next, job::bits(to.acc), pieces, u8::from(done))
        }
    }
}

fn engine(call: &Call, values: &[f64], from: &Bookmark, n: u64) -> Answer {
    let mut place = place_of(from);
    let code = probe::step_into(&probe::Range::of(call), values, n, &mut place);
    answer(code, place)
}

/// A call from a bookmark, and a loop of calls over its range. What differs is the error.
pub fn ask(tally: &mut Tally, dice: &mut Dice) -> Result<(), String> {
    let (call, from, n) = drawn::drawn(dice);
    let values = call.floats();
    let (expected, found) = (expected(&call, &values, &from, n), engine(&call, &values, &from, n));
    if found != expected {
        let text = drawn::text(&call, &from, n);
        return Err(format!("{text}\nthe oracle gives {expected:x?}, the engine {found:x?}"));
    }
    tally.count(match found {
        (0, .., 1) => String::from("a step to the end of its range"),
        (0, ..) => String::from("a step to a further bookmark"),
        (code, ..) => format!("refused {code}"),
    });
    whole_loop(tally, &call, &values, n)
}

/// If the range is accepted, and short.
fn whole_loop(tally: &mut Tally, call: &Call, values: &[f64], n: u64) -> Result<(), String> {
    let range = &call.range;
    let Ok(layout) = rules::range(&call.axes.sizes, &call.axes.strides, range) else { return Ok(()) };
    if n == 0 || range.end - range.start > MOST_ELEMENTS {
        return Ok(());
    }
    let pieces = (range.end - 1) / layout.run_len - range.start / layout.run_len + 1;
    let product = rules::product(&layout, range.base, (range.start, range.end), values);
    let expected = (Ok(job::bits(product)), pieces.div_ceil(n));
    let found = probe::by_steps(&probe::Range::of(call), values, n);
    if found != expected {
        let text = call.text();
        return Err(format!("by {n} pieces: {text}\nthe oracle gives {expected:x?}, the engine {found:x?}"));
    }
    tally.count(if product.bad { "a loop over a bad range" } else { "a loop over a range" });
    Ok(())
}
