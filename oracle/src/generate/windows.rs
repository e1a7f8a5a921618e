//! Ours: random lines of `windows`.
//!
//! A line holds a place for each window beside all the values. So the number of windows is drawn by itself, and is
//! mostly small, also where w is. The rates often change from one kind to another within a line, so that windows with and
//! without them lie side by side.

use super::ranges::drawn_buffers;
use super::reduce::run_length;
use super::{floats_text, rates, Dice};
use crate::ranges::Buffers;

/// The widest windows, but for those that are refused.
const WIDEST: u64 = 600;

/// The most windows of a line: with as many as these and the widest it is not longer than a line may be.
const MOST_WINDOWS: u64 = 1400;

/// The values are given by their bits.
pub struct Call {
    pub values: Vec<u64>,
    pub w: u64,
    pub buffers: Buffers,
}

pub fn line(dice: &mut Dice) -> String {
    drawn(dice).text()
}

pub fn drawn(dice: &mut Dice) -> Call {
    let (w, count) = (width(dice), window_count(dice));
    let mut values = stretches(dice, w + count - 1);
    spoil(dice, &mut values, w);
    let mut call = Call { values, w, buffers: drawn_buffers(dice, count as usize) };
    if dice.once_in(12) {
        call.put_faulty(dice);
    }
    call
}

/// Days, weeks, a month or two, now and then a year; lanes or blocks that are just full, or by one not.
fn width(dice: &mut Dice) -> u64 {
    match dice.below(10) {
        0..=4 => 1 + dice.below(70),
        5 => 1 + dice.below(9),
        6 => dice.of(&[7, 14, 28, 30, 31, 90, 92, 365]),
        7 | 8 => run_length(dice, 70),
        _ => run_length(dice, WIDEST),
    }
}

fn window_count(dice: &mut Dice) -> u64 {
    let most = if dice.once_in(60) { MOST_WINDOWS } else { dice.of(&[1, 9, 20, 20, 40, 40, 80, 140]) };
    1 + dice.below(most)
}

/// Rates of one kind, or of several, one stretch behind another.
fn stretches(dice: &mut Dice, length: u64) -> Vec<u64> {
    let mut values = Vec::new();
    for stretch in (0..dice.of(&[1, 1, 1, 2, 3, 6])).rev() {
        let left = length - values.len() as u64;
        let count = if stretch == 0 { left } else { dice.below(left + 1) };
        values.extend(rates::drawn(dice, count));
    }
    values
}

/// A few rates become others, or in some lines one in so many becomes bad.
fn spoil(dice: &mut Dice, values: &mut [u64], w: u64) {
    for _ in 0..dice.of(&[0, 0, 0, 1, 1, 2, 5]) {
        let other = dice.of(&[rates::bad, rates::bad, rates::subnormal, rates::any_normal]);
        values[spot(dice, values.len() as u64, w)] = other(dice);
    }
    if dice.once_in(20) {
        let some = dice.of(&[1, 4, 20, 70]);
        for value in values {
            if dice.once_in(some) {
                *value = rates::bad(dice);
            }
        }
    }
}

/// The first value or the last, the last of the first window or the value behind it, the first of the last window or
/// the value before it, or any.
fn spot(dice: &mut Dice, length: u64, w: u64) -> usize {
    let (last, any) = (length - 1, dice.below(length));
    let place = dice.of(&[0, last, w - 1, w.min(last), length - w, (length - w).saturating_sub(1), any, any, any, any]);
    place as usize
}

impl Call {
    pub fn text(&self) -> String {
        format!("windows{} {}{}", floats_text(&self.values), self.w, self.buffers.text())
    }

    /// Refused by 17: no width, one past the length, one that would be right if fewer bits were kept, or no values.
    /// Where the buffers have no place, by 16 too if they were looked at first.
    fn put_faulty(&mut self, dice: &mut Dice) {
        let length = self.values.len() as u64;
        let (near, far) = (length + 1 + dice.below(9), dice.any().max(length + 1));
        let others = [0, 0, length + 1, length + 1, near, far, (1 << 32) + self.w, 1 << 40, (1 << 40) + 1, 1 << 63];
        match dice.below(14) {
            0 => self.values.clear(),
            1 => self.w = u64::MAX - dice.below(2),
            2 => (self.values, self.w) = (Vec::new(), dice.below(2)),
            _ => self.w = dice.of(&others),
        }
        if dice.once_in(2) {
            self.buffers = Buffers { ms: Vec::new(), es: Vec::new(), bads: Vec::new() };
        }
    }
}
