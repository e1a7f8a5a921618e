//! Ours: random lines of `reduce` and of `product`, three to one: both words take the same call.
//!
//! A line holds all the values, so the layouts are small; many have runs that are long enough for blocks of 64 and a
//! tail. Ranges begin and end anywhere, so that many do so inside a run.

use super::axes::{self, Axes};
use super::{floats_text, rates, Dice};
use crate::rules::{self, Range};

/// The most values that a layout of `reduce` or of `ordered` takes.
pub const MOST_VALUES: i128 = 1100;

/// The most values of a line.
pub const LINE_VALUES: i128 = 4096;

const BLOCK: u64 = 64;

/// No range that is accepted visits more elements: a layout with stride 0 may have 2^40 of them.
pub const MOST_VISITED: u64 = 5000;

pub fn line(dice: &mut Dice) -> String {
    Call::drawn(dice).text()
}

pub fn drawn_axes(dice: &mut Dice) -> Axes {
    let room = if dice.once_in(40) { 1000 } else { dice.of(&[30, 80, 140, 200, 300, 300, 300, 300]) };
    let mut axes = match dice.below(29) {
        0 => dice.of(&[axes::wild, axes::edge, axes::mixed])(dice),
        1..=8 => one_run(dice, room),
        9..=16 => rows(dice, room),
        17 => axes::crowded(dice),
        18..=22 => axes::tied(dice),
        _ => compact(dice, room),
    };
    if dice.once_in(4) {
        repeat(dice, &mut axes);
    }
    match dice.below(150) {
        0 | 1 => axes::uneven(dice, &mut axes),
        2 | 3 => crowd(dice, &mut axes),
        _ => {}
    }
    axes
}

/// A length of at most `most`: anything, or one at which lanes or blocks are just full, or by one not.
pub fn run_length(dice: &mut Dice, most: u64) -> u64 {
    let full = dice.of(&[8, 16, 64, 64, 64, 72, 128, 128, 128, 192, 256, 256]);
    let length = if dice.once_in(3) { 1 + dice.below(most.max(1)) } else { full - 1 + dice.below(3) };
    length.clamp(1, most.max(1))
}

fn one_run(dice: &mut Dice, room: u64) -> Axes {
    let stride: i64 = dice.of(&[1, 1, 1, 1, 1, 1, 1, 1, 2, 2, -1, -1, 0, 3, -2]);
    let length = run_length(dice, room / stride.unsigned_abs().max(1));
    Axes { sizes: vec![length], strides: vec![stride] }
}

/// Rows of one length, with or without a gap between them, forwards or backwards.
fn rows(dice: &mut Dice, room: u64) -> Axes {
    let stride: i64 = dice.of(&[1, 1, 1, 1, 2, -1, -1, 3]);
    let share = room / dice.of(&[1, 2, 2, 3, 5]);
    let length = run_length(dice, share / stride.unsigned_abs()).max(2);
    let pitch = length * stride.unsigned_abs() + dice.of(&[0, 1, 1, 2, 5]);
    let count = (room / pitch).clamp(1, 9);
    let pitch = pitch as i64 * dice.of(&[1, 1, -1]);
    if dice.once_in(2) {
        Axes { sizes: vec![count, length], strides: vec![pitch, stride] }
    } else {
        Axes { sizes: vec![length, count], strides: vec![stride, pitch] }
    }
}

/// Any small axes for which there is room, or else one run.
fn compact(dice: &mut Dice, room: u64) -> Axes {
    for _ in 0..8 {
        let axes = axes::small(dice);
        let (low, high) = rules::ends(&axes.sizes, &axes.strides, 0);
        if high - low < i128::from(room) {
            return axes;
        }
    }
    one_run(dice, room)
}

/// One axis more, of stride 0.
fn repeat(dice: &mut Dice, axes: &mut Axes) {
    let size = if dice.once_in(8) { 1 << dice.below(41) } else { dice.of(&[2, 3, 7, 40]) };
    let place = dice.below(axes.sizes.len() as u64 + 1) as usize;
    axes.sizes.insert(place, size);
    axes.strides.insert(place, 0);
}

/// Axes of size 1 until there is one too many.
fn crowd(dice: &mut Dice, axes: &mut Axes) {
    while axes.sizes.len() <= rules::MOST_AXES {
        axes.sizes.push(1);
        axes.strides.push(dice.below(9) as i64);
    }
}

/// The whole or nearly so, or from anywhere to anywhere; now and then one that is refused.
fn stretch(dice: &mut Dice, total: u64) -> (u64, u64) {
    let start = dice.below(total.max(1));
    let edge = (total / 2).clamp(1, 20);
    let (start, end) = match dice.below(8) {
        0 | 1 => axes::range(dice, total),
        2 | 3 => (0, total),
        4..=6 => (dice.below(edge), total - dice.below(edge)),
        _ => (start, start + 1 + dice.below((total.max(1) - start).max(1))),
    };
    if start < end && end <= total && end - start > MOST_VISITED {
        (start, start + 1 + dice.below(MOST_VISITED))
    } else {
        (start, end)
    }
}

/// A base and a count of values by which the layout fits exactly, with room, or not by one. A layout that takes more
/// than `most` values gets a few.
fn fit(dice: &mut Dice, axes: &Axes, most: i128) -> (i64, u64) {
    let (low, high) = rules::ends(&axes.sizes, &axes.strides, 0);
    let (low, high) = (low.max(-(1 << 100)), high.min(1 << 100));
    if high - low >= most {
        return (dice.of(&[0, 1, -1, i64::MIN, i64::MAX]), dice.below(12));
    }
    let spare = LINE_VALUES - (high - low + 1);
    let (before, after) = match dice.below(80) {
        0 => (-1, 1),
        1 => (0, -1),
        2 => (1, -1),
        3 => (0, low - high - 1),
        4 => return (dice.of(&[i64::MIN, i64::MAX, -1]), dice.below(12)),
        5..=29 => {
            let before = i128::from(dice.below(20)).min(spare);
            (before, i128::from(dice.below(20)).min(spare - before))
        }
        _ => (0, 0),
    };
    ((before - low) as i64, (before + high - low + 1 + after) as u64)
}

/// A call with its values, as bits. The word is that of its line.
pub struct Call {
    word: &'static str,
    pub axes: Axes,
    pub range: Range,
    pub values: Vec<u64>,
}

impl Call {
    pub fn drawn(dice: &mut Dice) -> Call {
        let axes = drawn_axes(dice);
        let mut call = Call::over(dice, axes, &["reduce", "reduce", "reduce", "product"], MOST_VALUES);
        if dice.once_in(8) {
            call.put(dice, rates::subnormal);
        }
        if dice.once_in(7) {
            call.put(dice, rates::bad);
        } else if dice.once_in(if call.word == "product" { 2 } else { 20 }) {
            call.aim(dice);
        }
        call
    }

    /// One of the words, over these axes, with values of which none is bad. Axes that take more than `most` values get
    /// too few.
    pub fn over(dice: &mut Dice, axes: Axes, words: &[&'static str], most: i128) -> Call {
        let total = axes.total(dice);
        let (start, end) = stretch(dice, total);
        let (base, length) = fit(dice, &axes, most);
        let word = dice.of(words);
        let values = rates::drawn(dice, length);
        Call { word, axes, range: Range { base, start, end, length }, values }
    }

    pub fn text(&self) -> String {
        let Range { base, start, end, .. } = &self.range;
        format!("{}{} {base} {start} {end}{}", self.word, self.axes.text(), floats_text(&self.values))
    }

    /// The values themselves.
    pub fn floats(&self) -> Vec<f64> {
        super::floats(&self.values)
    }

    /// The length of a run, if the call is accepted.
    pub fn run(&self) -> Option<u64> {
        rules::range(&self.axes.sizes, &self.axes.strides, &self.range).ok().map(|layout| layout.run_len)
    }

    /// The piece of a visited element in a run of this length: its first element, and the one past its last.
    pub fn piece(&self, element: u64, run: u64) -> (u64, u64) {
        let number = element / run;
        (self.range.start.max(number * run), self.range.end.min((number + 1) * run))
    }

    /// The place of an element among the values. The call is accepted.
    pub fn place(&self, element: u64) -> usize {
        let axes = rules::axes(&self.axes.sizes, &self.axes.strides);
        rules::offset(&axes, self.range.base, element) as usize
    }

    /// The places of the visited elements, in their order, if the call is accepted.
    pub fn visited(&self) -> Option<Vec<usize>> {
        self.run()?;
        Some((self.range.start..self.range.end).map(|element| self.place(element)).collect())
    }

    /// Mostly one rate becomes another, as a bad one or a subnormal, now and then two or three.
    pub fn put(&mut self, dice: &mut Dice, other: fn(&mut Dice) -> u64) {
        let Some(run) = self.run() else { return };
        for _ in 0..dice.of(&[1, 1, 1, 1, 2, 3]) {
            let place = self.place(self.spot(dice, run));
            self.values[place] = other(dice);
        }
    }

    /// Some of the values that the range visits become others, or some of those that it does not, which must not be
    /// seen in the answer.
    pub fn put_some(&mut self, dice: &mut Dice, visited: bool, other: fn(&mut Dice) -> u64) {
        let Some(places) = self.visited() else { return };
        let mut seen = vec![false; self.values.len()];
        for place in places {
            seen[place] = true;
        }
        let some = dice.of(&[1, 4, 20]);
        for (place, value) in self.values.iter_mut().enumerate() {
            if seen[place] == visited && dice.once_in(some) {
                *value = other(dice);
            }
        }
    }

    /// The first or the last element, one in a block or in the tail of some piece, any, or a neighbour of the range,
    /// which must not be seen in the answer.
    fn spot(&self, dice: &mut Dice, run: u64) -> u64 {
        let (start, end) = (self.range.start, self.range.end);
        let any = start + dice.below(end - start);
        let (first, past) = self.piece(any, run);
        let tail = first + (past - first) / BLOCK * BLOCK;
        match dice.below(10) {
            0 => start,
            1 => end - 1,
            2..=4 if first < tail => first + dice.below(tail - first),
            5 | 6 if tail < past => tail + dice.below(past - tail),
            7 if start % run > 0 => start - 1,
            8 if end % run > 0 => end,
            _ => any,
        }
    }

    /// Exponents are changed so that the product comes to a limit of the doubles, if none is visited twice.
    fn aim(&mut self, dice: &mut Dice) {
        let (sizes, strides) = (&self.axes.sizes, &self.axes.strides);
        let Ok(acc) = rules::reduce(sizes, strides, &self.range, &self.floats()) else { return };
        let mut wanted = dice.of(&[-1076, -1075, -1074, -1073, -1050, -1024, -1023, -1022, 1023, 1023, 1024]) - acc.e;
        for element in self.range.start..self.range.end {
            let place = self.place(element);
            (self.values[place], wanted) = rates::moved(self.values[place], wanted);
        }
    }
}
