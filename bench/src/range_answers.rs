//! Lists of ranges in one call, asked of the engine and of the oracle: the code, and every place of the three buffers,
//! written or not. And what a host does next: the accumulators of the list joined in its order, and what they give
//! finished, beside the source's own joining and finishing. Of these the refusals are asked too.

use crate::erased::calls::Acc;
use crate::generate::reduce::Call;
use crate::generate::{ranges as drawn, Dice};
use crate::job;
use crate::places::{self, answer, Answer};
use crate::probe::{self, Bits, Place, Places};
use crate::ranges::{self, Buffers, Ranges};
use crate::rules;
use crate::tally::Tally;

/// What the places of a join and of a finish hold before it: no call gives such an m, or such a number.
const BEFORE: Place = Place { m: -0.1, e: i64::MIN, bad: 1 };
const NUMBER_BEFORE: u64 = 0xa5a5_0123_4567_5a5a;

/// The most exponent of an accumulator within its limits.
const LIMIT: i64 = 1 << 52;

fn expected(call: &Call, list: &Ranges, values: &[f64], mut out: Buffers) -> Answer {
    let code = ranges::reduce_ranges(&call.axes.sizes, &call.axes.strides, call.range.base, list, values, &mut out);
    answer(code, out)
}

fn engine(call: &Call, list: &Ranges, values: &[f64], mut out: Buffers) -> Answer {
    let lent = probe::Ranges {
        sizes: &call.axes.sizes,
        strides: &call.axes.strides,
        base: call.range.base,
        starts: &list.starts,
        ends: &list.ends,
    };
    let code = probe::ranges_into(&lent, values, &mut Places::of(&mut out));
    answer(code, out)
}

/// A list of ranges, and its accumulators joined and finished. What differs is the error.
pub fn ask(tally: &mut Tally, dice: &mut Dice) -> Result<(), String> {
    let (call, list, before) = drawn::drawn(dice);
    let values = call.floats();
    let expected = expected(&call, &list, &values, before.clone());
    let found = engine(&call, &list, &values, before.clone());
    let differs = |difference: String| format!("{}\n{difference}", drawn::text(&call, &list, &before));
    if found != expected {
        return Err(differs(format!("the oracle gives {expected:x?}, the engine {found:x?}")));
    }
    if found.0 != 0 {
        tally.count(format!("refused {}", found.0));
        return Ok(());
    }
    let accs = places::accs(found, list.starts.len());
    places::count(tally, "range", &accs);
    joined(tally, dice, &accs).map_err(differs)
}

/// As a host joins them and finishes what they give; and then with an accumulator that no reduction gave.
fn joined(tally: &mut Tally, dice: &mut Dice, accs: &[Place]) -> Result<(), String> {
    let Some((&first, others)) = accs.split_first() else { return Ok(()) };
    let mut whole = first;
    for &acc in others {
        whole = same_join(tally, whole, acc)?.unwrap_or(whole);
    }
    same_finish(tally, whole)?;
    let (acc, other) = (dice.of(accs), strained(dice, whole));
    same_join(tally, other, acc)?;
    same_join(tally, acc, other)?;
    same_finish(tally, other)
}

/// With an m or an e at a limit or past it, or an e by which a join with an accumulator of the list comes to one.
fn strained(dice: &mut Dice, acc: Place) -> Place {
    let limit = LIMIT + dice.of(&[-1, 0, 0, 1]);
    match dice.below(4) {
        0 => Place { m: dice.of(&[2.0, -2.0, 0.5, 0.0, f64::NAN, f64::INFINITY, 1.0, -1.0]), ..acc },
        1 => Place { e: dice.of(&[limit, -limit, i64::MAX, i64::MIN]), ..acc },
        2 => Place { e: if acc.e < 0 { -limit - acc.e } else { limit - acc.e }, ..acc },
        _ => Place { e: dice.of(&[-1075, -1074, -1023, -1022, 1023, 1024]), bad: 0, ..acc },
    }
}

fn given(place: Place) -> Acc {
    Acc { m: place.m, e: place.e, bad: place.bad == 1 }
}

/// The engine's join, or nothing if it is refused.
fn same_join(tally: &mut Tally, left: Place, right: Place) -> Result<Option<Place>, String> {
    let expected: (u32, Bits) = match rules::join(given(left), given(right)) {
        Ok(acc) => (0, job::bits(acc)),
        Err(code) => (code, BEFORE.bits()),
    };
    let mut place = BEFORE;
    let code = probe::join_into(left, right, &mut place);
    let found = (code, place.bits());
    if found != expected {
        let (left, right) = (left.bits(), right.bits());
        return Err(format!("joining {left:x?} and {right:x?}: the oracle gives {expected:x?}, the engine {found:x?}"));
    }
    if code != 0 {
        tally.count(format!("a join, refused {code}"));
        return Ok(None);
    }
    tally.count(if place.bad == 1 { "a join, bad" } else { "a join" });
    Ok(Some(place))
}

fn same_finish(tally: &mut Tally, acc: Place) -> Result<(), String> {
    let expected = match rules::finish(Ok(given(acc))) {
        Ok(number) => (0, rules::one_nan(number).to_bits()),
        Err(code) => (code, NUMBER_BEFORE),
    };
    let mut number = f64::from_bits(NUMBER_BEFORE);
    let code = probe::finish_into(acc, &mut number);
    let found = (code, number.to_bits());
    if found != expected {
        let acc = acc.bits();
        return Err(format!("finishing {acc:x?}: the oracle gives {expected:x?}, the engine {found:x?}"));
    }
    tally.count(match code {
        0 if number.is_nan() => String::from("a finished NaN"),
        0 => String::from("a finished number"),
        _ => format!("a finish, refused {code}"),
    });
    Ok(())
}
