//! Ours: random lines of `step`: single calls from any bookmark, and callers' loops, in which each line has the bookmark
//! of the answer before it.
//!
//! Layouts of many short runs are drawn beside those of `reduce`. Of a bookmark inside the range the exponent is often
//! chosen by the pieces behind it, so that after one of them it lies at 2^52 or just past it.

use super::accumulator::{at_limit, inside, near_an_end, outside, plain, short, small, unit, wild, LIMIT};
use super::axes::{self, Axes};
use super::rates::{self, between};
use super::reduce::{self, Call, MOST_VALUES};
use super::{ordered, Dice};
use crate::erased::calls::Acc;
use crate::steps::{self, Bookmark, StepResult};

/// The most values of a layout of short runs.
const ROOM: u64 = 150;

/// The most lines of a caller's loop.
const MOST_LINES: usize = 10;

/// Where more elements are left, a call gets a small count of pieces, so that not all of them are worked.
const MOST_ELEMENTS: u64 = 5000;

pub fn lines(dice: &mut Dice) -> String {
    let (call, from, count) = drawn(dice);
    if dice.once_in(2) {
        caller_loop(&call, from, count).join("\n")
    } else {
        text(&call, &from, count)
    }
}

/// A call, the bookmark that it begins at, and how many pieces it may work.
pub fn drawn(dice: &mut Dice) -> (Call, Bookmark, u64) {
    let call = drawn_call(dice);
    let Some(cut) = Cut::of(&call) else {
        // It is refused by its layout or its range, whatever the rest is.
        let next = dice.of(&[call.range.start, call.range.start, call.range.end, 0, u64::MAX]);
        let acc = dice.of(&[any_acc, within_limits])(dice);
        return (call, Bookmark { next, acc }, dice.of(&[0, 1, 2, u64::MAX]));
    };
    let next = if dice.once_in(10) { no_beginning(dice, &cut) } else { beginning(dice, &cut) };
    let count = if dice.once_in(25) { 0 } else { piece_count(dice, &cut, next) };
    let acc = acc_at(dice, &call, &cut, next, count);
    (call, Bookmark { next, acc }, count)
}

/// The lines of a caller who hands each bookmark on, until it is finished or refused, or there are many.
fn caller_loop(call: &Call, from: Bookmark, count: u64) -> Vec<String> {
    let mut lines = vec![text(call, &from, count)];
    let mut at = from;
    while lines.len() < MOST_LINES {
        match answer(call, &at, count) {
            Ok(StepResult { to, done: false, .. }) => at = to,
            _ => break,
        }
        lines.push(text(call, &at, count));
    }
    lines
}

fn answer(call: &Call, from: &Bookmark, count: u64) -> Result<StepResult, u32> {
    steps::step(&call.axes.sizes, &call.axes.strides, &call.range, &call.floats(), from, count)
}

pub fn text(call: &Call, from: &Bookmark, count: u64) -> String {
    let Bookmark { next, acc } = from;
    format!("{} {next} {:016x} {} {} {count}", call.text(), acc.m.to_bits(), acc.e, u8::from(acc.bad))
}

// ---- layouts, ranges and values

fn drawn_call(dice: &mut Dice) -> Call {
    let axes = match dice.below(36) {
        0 => no_elements(dice),
        1 | 2 => ordered::few(dice),
        3 => many_runs(dice),
        4..=17 => reduce::drawn_axes(dice),
        18..=21 => axes::tied(dice),
        _ => short_runs(dice),
    };
    let mut call = Call::over(dice, axes, &["step"], MOST_VALUES);
    if dice.once_in(3) {
        sway(dice, &mut call);
    }
    if dice.once_in(4) {
        call.put(dice, rates::subnormal);
    }
    if dice.once_in(6) {
        call.put(dice, rates::bad);
    }
    let total = call.axes.total(dice);
    // As far as the layout goes, if its runs are so short that a few of them are soon worked.
    if total > MOST_ELEMENTS && call.run().is_some_and(|run| run < 100) && dice.once_in(2) {
        call.range.end = total - dice.below(4);
    }
    call
}

/// One outer axis or several, with a gap or without, forwards or backwards, in any order.
pub fn short_runs(dice: &mut Dice) -> Axes {
    let most = dice.of(&[1, 2, 4, 9, 20]);
    let length = 2 + dice.below(most);
    let stride: i64 = dice.of(&[1, 1, 1, 2, -1, -3]);
    let mut axes = vec![(length, stride)];
    let mut reach = length * stride.unsigned_abs();
    for _ in 0..dice.of(&[1, 1, 2, 2, 3, 5]) {
        let pitch = reach + dice.of(&[0, 1, 1, 2]);
        let more = dice.of(&[2, 2, 4, 30]);
        let size = (2 + dice.below(more)).min(ROOM / pitch).max(1);
        axes.push((size, pitch as i64 * dice.of(&[1, 1, 1, -1])));
        reach = pitch * size;
    }
    Axes::shuffled(dice, axes)
}

/// A run that is visited up to 2^38 times.
fn many_runs(dice: &mut Dice) -> Axes {
    let length = 2 + dice.below(3);
    let times = 1 << dice.of(&[6, 20, 31, 32, 38]);
    Axes { sizes: vec![times, length], strides: vec![0, dice.of(&[1, 2, -1])] }
}

pub fn no_elements(dice: &mut Dice) -> Axes {
    let mut axes = short_runs(dice);
    let place = dice.below(axes.sizes.len() as u64) as usize;
    axes.sizes[place] = 0;
    axes
}

/// Runs that raise the exponent and runs that lower it, by turns or as it comes: it may pass a limit and come back.
fn sway(dice: &mut Dice, call: &mut Call) {
    let Some(run) = call.run() else { return };
    let (most, by_turns) = (dice.of(&[1, 3, 40, 1000]), dice.once_in(2));
    for element in call.range.start..call.range.end {
        let up = if by_turns { element / run % 2 == 0 } else { dice.once_in(2) };
        let e = between(dice, 0, most);
        let place = call.place(element);
        call.values[place] = rates::rate(plain(dice), if up { e } else { -e });
    }
}

// ---- where pieces begin, and how many

/// An accepted range, and the length of its runs.
struct Cut {
    run: u64,
    start: u64,
    end: u64,
}

impl Cut {
    fn of(call: &Call) -> Option<Cut> {
        let run = call.run()?;
        Some(Cut { run, start: call.range.start, end: call.range.end })
    }

    /// The pieces from a beginning on, of which the first may begin inside a run.
    fn pieces(&self, next: u64) -> u64 {
        self.end.div_ceil(self.run) - next / self.run
    }

    /// Where a piece begins, by its number.
    fn beginning(&self, number: u64) -> u64 {
        self.start.max((self.start / self.run + number) * self.run)
    }
}

/// The start, the second piece, one of the last, or any.
fn beginning(dice: &mut Dice, cut: &Cut) -> u64 {
    let pieces = cut.pieces(cut.start);
    let number = match dice.below(8) {
        0 | 1 => 0,
        2 => (pieces - 1).min(1),
        3 | 4 => pieces - 1 - dice.below(pieces.min(4)),
        _ => dice.below(pieces),
    };
    cut.beginning(number)
}

/// Beside a beginning; the end, or one of a run that lies before the range or behind it; runs counted from the start;
/// anything. Now and then it is a beginning all the same.
fn no_beginning(dice: &mut Dice, cut: &Cut) -> u64 {
    let at = beginning(dice, cut);
    match dice.below(12) {
        0 | 1 => at + 1,
        2 | 3 => at.wrapping_sub(1),
        4 => cut.end,
        5 => cut.end.div_ceil(cut.run) * cut.run,
        6 => cut.start / cut.run * cut.run,
        7 => cut.start.wrapping_sub(1),
        8 | 9 => cut.start + cut.run * (1 + dice.below(3)),
        10 => at + dice.of(&[1 << 32, 1 << 63]),
        _ => dice.any(),
    }
}

fn piece_count(dice: &mut Dice, cut: &Cut, next: u64) -> u64 {
    let few = 1 + dice.below(6);
    let next = next.clamp(cut.start, cut.end - 1);
    if cut.end - next > MOST_ELEMENTS {
        return few;
    }
    let left = cut.pieces(next);
    match dice.below(16) {
        0..=2 => 1,
        3 | 4 => 2,
        5..=7 => few,
        8 | 9 => left,
        10 => (left - 1).max(1),
        11 => left + 1,
        12 | 13 => left.div_ceil(1 + dice.below(6)),
        14 => dice.of(&[1 << 32, 1 << 63, u64::MAX, u64::MAX]),
        _ => dice.any().max(1),
    }
}

// ---- accumulators

/// Anything, mostly out of its limits.
fn any_acc(dice: &mut Dice) -> Acc {
    let e = dice.of(&[small, at_limit, wild])(dice);
    Acc { m: f64::from_bits(outside(dice)), e, bad: dice.once_in(2) }
}

fn within_limits(dice: &mut Dice) -> Acc {
    let significand = dice.of(&[plain, near_an_end, short])(dice);
    let e = dice.of(&[small, small, inside])(dice);
    Acc { m: f64::from_bits(unit(dice, significand)), e, bad: dice.once_in(8) }
}

/// At the start anything does, since it is ignored. Elsewhere it is mostly one that is not refused by 9.
fn acc_at(dice: &mut Dice, call: &Call, cut: &Cut, next: u64, count: u64) -> Acc {
    let acc = within_limits(dice);
    match dice.below(24) {
        _ if next == cut.start && dice.once_in(2) => any_acc(dice),
        0 => any_acc(dice),
        1 => Acc { e: at_limit(dice), ..acc },
        2 => Acc { e: wild(dice), ..acc },
        3..=12 => Acc { e: aimed(dice, call, &Bookmark { next, acc }, count).unwrap_or(acc.e), ..acc },
        _ => acc,
    }
}

/// An exponent by which a join of the call comes to 2^52 or -2^52, or just past it: the first, the last, the one where it
/// is highest or lowest, or any.
fn aimed(dice: &mut Dice, call: &Call, from: &Bookmark, count: u64) -> Option<i64> {
    let after = exponents(call, from, count);
    let (first, last) = (*after.first()?, *after.last()?);
    let (lowest, highest) = (*after.iter().min()?, *after.iter().max()?);
    let any = dice.of(&after);
    let moved = dice.of(&[first, last, lowest, highest, any]);
    let limit = LIMIT + dice.of(&[-1, 0, 0, 1, 1, 2]);
    Some(if moved > 0 || (moved == 0 && dice.once_in(2)) { limit - moved } else { -limit - moved })
}

/// How far each join of the call moves the exponent of a bookmark inside the range, from where it is at first.
fn exponents(call: &Call, from: &Bookmark, count: u64) -> Vec<i64> {
    let mut at = Bookmark { next: from.next, acc: Acc { e: 0, bad: false, ..from.acc } };
    let mut after = Vec::new();
    while (after.len() as u64) < count {
        let Ok(StepResult { to, done, .. }) = answer(call, &at, 1) else { break };
        after.push(to.acc.e);
        at = to;
        if done {
            break;
        }
    }
    after
}
