//! Ours: random lines of `first`, over the layouts of `reduce`, over ones of a few values and over long runs.
//!
//! The engine tests many values of a piece at a time, by their products and by the least of them, and looks at each
//! only where that fails. So the values are drawn on both sides of what such a test lets through, with a bad rate or
//! without, and with subnormals, which are not bad.

use super::accumulator::{near_an_end, plain};
use super::axes::Axes;
use super::ordered;
use super::rates::{self, Minus};
use super::reduce::{self, Call, LINE_VALUES};
use super::Dice;

/// So many values are tested at a time.
const CHUNK: u64 = 2048;

/// The exponents of the least and the greatest normal numbers and of the subnormal ones, and those at which a square
/// leaves the normal numbers or becomes zero, or just not.
const ENDS: [i64; 10] =
    [rates::LEAST_SUBNORMAL, rates::LEAST - 1, rates::LEAST, -538, -537, -512, -511, 511, 512, rates::MOST];

pub fn line(dice: &mut Dice) -> String {
    drawn(dice).text()
}

pub fn drawn(dice: &mut Dice) -> Call {
    let axes = match dice.below(16) {
        0 => long(dice),
        1..=4 => ordered::few(dice),
        _ => reduce::drawn_axes(dice),
    };
    let mut call = Call::over(dice, axes, &["first"], LINE_VALUES);
    if dice.once_in(3) {
        bring_to_an_end(dice, &mut call);
    }
    if dice.once_in(2) {
        call.put_some(dice, false, rates::bad_of_any_pattern);
    }
    match dice.below(6) {
        0 => call.put(dice, rates::subnormal),
        1 => call.put_some(dice, true, rates::subnormal),
        _ => {}
    }
    match dice.below(8) {
        0..=2 => {}
        3..=5 => spoil_one(dice, &mut call),
        6 => call.put(dice, rates::bad_of_any_pattern),
        _ => call.put_some(dice, true, rates::bad_of_any_pattern),
    }
    call
}

/// A run of about a chunk or several, or rows of such runs, as many as a line has room for.
fn long(dice: &mut Dice) -> Axes {
    let stride: i64 = dice.of(&[1, 1, 1, 1, -1, -1, 2, 2, -2, 3, 0]);
    let step = stride.unsigned_abs().max(1);
    let most = (LINE_VALUES as u64 - 1) / step + 1;
    let length = if dice.once_in(2) {
        CHUNK * (1 + dice.below(2)) - 1 + dice.below(3)
    } else {
        most / 2 + 1 + dice.below(most / 2)
    };
    let length = length.min(most);
    let pitch = length * step + dice.of(&[0, 1, 5]);
    let count = (LINE_VALUES as u64 / pitch).max(1);
    let pitch = pitch as i64 * dice.of(&[1, 1, -1]);
    Axes { sizes: vec![length, count], strides: vec![stride, pitch] }
}

/// All values, or some, get one of these exponents, and a significand that often is the least or the greatest.
fn bring_to_an_end(dice: &mut Dice, call: &mut Call) {
    let e = dice.of(&ENDS);
    let some = dice.of(&[1, 8, 200]);
    let minus = Minus::drawn(dice);
    for value in &mut call.values {
        if dice.once_in(some) {
            let significand = dice.of(&[near_an_end, plain])(dice);
            *value = rates::rate_or_subnormal(significand, e) + minus.sign(dice);
        }
    }
}

/// One visited rate becomes bad: any, or in a piece of several chunks one beside the end of a chunk, or the last.
fn spoil_one(dice: &mut Dice, call: &mut Call) {
    let Some(run) = call.run() else { return };
    let any = call.range.start + dice.below(call.range.end - call.range.start);
    let (first, past) = call.piece(any, run);
    let element = if past - first > CHUNK && !dice.once_in(3) {
        let next_chunk = first + CHUNK * (1 + dice.below((past - first - 1) / CHUNK));
        dice.of(&[next_chunk - 1, next_chunk, next_chunk + 1, past - 1]).min(past - 1)
    } else {
        any
    };
    let place = call.place(element);
    call.values[place] = rates::bad_of_any_pattern(dice);
}
