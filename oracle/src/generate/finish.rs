//! Ours: random lines of `finish`.
//!
//! Below the exponent -1022 a significand is divided by 2^(-1022 - e), and from 2^54 on nothing of it is left. Many
//! lines are chosen by what is left over there: half of the divisor, or one more or less.

use super::accumulator::{at_limit, inside, near_an_end, outside, plain, short, small, unit, wild};
use super::accumulator::{ONE, TWO};
use super::Dice;

pub fn line(dice: &mut Dice) -> String {
    if dice.once_in(16) {
        return format!("finish refused {}", refusal(dice));
    }
    let (significand, e) = factor(dice);
    let m = if dice.once_in(12) { outside(dice) } else { unit(dice, significand) };
    let bad = u8::from(dice.once_in(10));
    format!("finish acc {m:016x} {e} {bad}")
}

/// A number of the rules or beside them, or any other that a refusal can hold.
fn refusal(dice: &mut Dice) -> u32 {
    match dice.below(4) {
        0 => dice.any() as u32,
        1 => u32::MAX - dice.below(2) as u32,
        _ => dice.below(18) as u32,
    }
}

/// A significand and an exponent.
fn factor(dice: &mut Dice) -> (u64, i64) {
    match dice.below(16) {
        0..=4 => about_half(dice),
        5..=7 => (significand(dice), dice.below(66) as i64 - 1080),
        8..=10 => (significand(dice), dice.below(16) as i64 + 1015),
        11 => (significand(dice), at_limit(dice)),
        12 => (significand(dice), inside(dice)),
        13 => (significand(dice), wild(dice)),
        _ => (significand(dice), small(dice)),
    }
}

fn significand(dice: &mut Dice) -> u64 {
    match dice.below(4) {
        0 => near_an_end(dice),
        1 => short(dice),
        _ => plain(dice),
    }
}

/// A division that leaves exactly half, or one more or less, with every quotient from 0 to 2^52 - 1.
fn about_half(dice: &mut Dice) -> (u64, i64) {
    let bits = 1 + dice.below(53);
    let half = 1 << (bits - 1);
    let left = (plain(dice) >> bits << bits) + half;
    let beside = left + dice.of(&[0, 0, 0, 1]) - dice.of(&[0, 0, 0, 1]);
    (beside.clamp(ONE, TWO - 1), -1022 - bits as i64)
}
