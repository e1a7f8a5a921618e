//! Ours: random lines of `join`.
//!
//! The product of two significands is rounded by 2^52, or by 2^53 from 2^105 on, and the lines below are chosen by
//! what is left over there.

use super::accumulator::{at_limit, inside, near_an_end, outside, plain, short, small, unit, wild, with_zeros};
use super::accumulator::{LIMIT, ONE, TWO};
use super::Dice;

pub fn line(dice: &mut Dice) -> String {
    let (left, right) = patterns(dice);
    let (first, second) = exponents(dice);
    let (bad, also_bad) = marks(dice);
    format!("join {left:016x} {first} {bad} {right:016x} {second} {also_bad}")
}

/// Mostly neither is bad.
fn marks(dice: &mut Dice) -> (u8, u8) {
    match dice.below(12) {
        0 => (0, 1),
        1 => (1, 0),
        2 => (1, 1),
        _ => (0, 0),
    }
}

/// The bits of the two m. Once in eight, one of them or each is not in [1, 2).
fn patterns(dice: &mut Dice) -> (u64, u64) {
    let (mut left, mut right) = significands(dice);
    if dice.once_in(2) {
        (left, right) = (right, left);
    }
    let (left, right) = (unit(dice, left), unit(dice, right));
    match dice.below(24) {
        0 => (outside(dice), right),
        1 => (left, outside(dice)),
        2 => (outside(dice), outside(dice)),
        _ => (left, right),
    }
}

fn significands(dice: &mut Dice) -> (u64, u64) {
    match dice.below(8) {
        0 => (plain(dice), plain(dice)),
        1 => (near_an_end(dice), plain(dice)),
        2 => (near_an_end(dice), near_an_end(dice)),
        3 => (short(dice), short(dice)),
        4 => about_two(dice),
        5 => tie(dice),
        6 => beside_a_tie(dice),
        _ => (ONE, plain(dice)),
    }
}

/// Products at 2: a little below, which may round up to it, or a little above. No two give it exactly.
fn about_two(dice: &mut Dice) -> (u64, u64) {
    let left = ONE + 1 + dice.below(ONE - 1);
    let right = ((1u128 << 105) / u128::from(left)) as u64;
    let right = right + dice.of(&[0, 0, 0, 1]);
    (left, right.clamp(ONE, TWO - 1))
}

/// What the product is divided by.
fn divisor(left: u64, right: u64) -> u128 {
    if u128::from(left) * u128::from(right) < 1 << 105 {
        1 << 52
    } else {
        1 << 53
    }
}

/// How far the product's remainder is from half of its divisor.
fn from_half(left: u64, right: u64) -> i128 {
    let by = divisor(left, right);
    let remainder = u128::from(left) * u128::from(right) % by;
    remainder as i128 - (by / 2) as i128
}

/// A product whose remainder is exactly half: the zeros at the ends of the two are one fewer than the divisor's.
fn tie(dice: &mut Dice) -> (u64, u64) {
    loop {
        let zeros = 51 + dice.below(2);
        let first = dice.below(zeros.min(51) + 1);
        let (left, right) = (with_zeros(dice, first), with_zeros(dice, zeros - first));
        if from_half(left, right) == 0 {
            return (left, right);
        }
    }
}

/// The number by which an odd one gives 1, modulo 2^64.
fn inverse(odd: u64) -> u64 {
    let mut found = odd;
    for _ in 0..5 {
        found = found.wrapping_mul(2u64.wrapping_sub(odd.wrapping_mul(found)));
    }
    found
}

/// A product whose remainder is one more than half or one less.
fn beside_a_tie(dice: &mut Dice) -> (u64, u64) {
    loop {
        let left = plain(dice) | 1;
        let half = dice.of(&[ONE / 2, ONE / 2 + ONE, ONE]);
        let remainder = dice.of(&[half - 1, half + 1]);
        let right = inverse(left).wrapping_mul(remainder) % TWO;
        if right >= ONE && from_half(left, right).abs() == 1 {
            return (left, right);
        }
    }
}

fn exponents(dice: &mut Dice) -> (i64, i64) {
    match dice.below(16) {
        0 => (wild(dice), small(dice)),
        1 => (small(dice), wild(dice)),
        2 => (at_limit(dice), small(dice)),
        3 => (small(dice), at_limit(dice)),
        4 => (at_limit(dice), at_limit(dice)),
        5..=8 => limit_together(dice),
        9 => (inside(dice), inside(dice)),
        _ => (small(dice), small(dice)),
    }
}

/// Two that are accepted, and whose sum is a bound of refusal 10 or a neighbour of it.
fn limit_together(dice: &mut Dice) -> (i64, i64) {
    let sum = LIMIT + dice.of(&[-2, -1, -1, 0, 0, 1]);
    let first = match dice.below(3) {
        0 => LIMIT - dice.below(3) as i64,
        1 => LIMIT / 2,
        _ => 1 + dice.below(LIMIT as u64) as i64,
    };
    if dice.once_in(2) {
        (first, sum - first)
    } else {
        (-first, first - sum)
    }
}
