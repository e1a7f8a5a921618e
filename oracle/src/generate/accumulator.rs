//! Ours: the m and the e of an accumulator, shared by the lines of `join`, of `finish` and of the rates.
//!
//! A significand is |m| × 2^52, a whole number from 2^52 up to 2^53, which is left out.

use super::Dice;

pub const ONE: u64 = 1 << 52;
pub const TWO: u64 = 1 << 53;
pub const SIGN: u64 = 1 << 63;
pub const LIMIT: i64 = 1 << 52;

/// The bits of a significand, with a sign.
pub fn unit(dice: &mut Dice, significand: u64) -> u64 {
    assert!((ONE..TWO).contains(&significand));
    (1023 << 52) + (significand - ONE) + signed(dice)
}

pub fn signed(dice: &mut Dice) -> u64 {
    dice.of(&[0, SIGN])
}

pub fn plain(dice: &mut Dice) -> u64 {
    ONE + dice.below(ONE)
}

/// 1 or a little above, or a little below 2.
pub fn near_an_end(dice: &mut Dice) -> u64 {
    let step = dice.of(&[0, 0, 1, 2, 3, 1 << 25, 1 << 26, (1 << 26) + 1]);
    if dice.once_in(2) {
        ONE + step
    } else {
        TWO - 1 - step
    }
}

/// A fraction of a few bits: many such products are exact.
pub fn short(dice: &mut Dice) -> u64 {
    let bits = dice.below(30);
    ONE + (dice.below(1 << bits) << (52 - bits))
}

/// An odd number, moved up to a significand that ends in so many zeros.
pub fn with_zeros(dice: &mut Dice, zeros: u64) -> u64 {
    let odd = (ONE >> zeros) + dice.below(ONE >> zeros);
    (odd | 1) << zeros
}

/// The bits of an m that refusal 9 refuses, or of anything.
pub fn outside(dice: &mut Dice) -> u64 {
    let size = match dice.below(10) {
        0 => 1024 << 52,
        1 => (1023 << 52) - 1,
        2 => 0.99999f64.to_bits(),
        3 => 0,
        4 => dice.of(&[1, 2, ONE - 1, ONE]),
        5 => dice.below(ONE),
        6 => 2047 << 52,
        7 => (2047 << 52) + dice.of(&[1, ONE / 2, ONE / 2 + 1, ONE - 1]),
        8 => (2047 << 52) + 1 + dice.below(ONE - 1),
        _ => dice.next() % SIGN,
    };
    size + signed(dice)
}

pub fn small(dice: &mut Dice) -> i64 {
    dice.below(2201) as i64 - 1100
}

pub fn inside(dice: &mut Dice) -> i64 {
    dice.below(2 * LIMIT as u64 + 1) as i64 - LIMIT
}

/// A bound of refusal 9, or a neighbour of it.
pub fn at_limit(dice: &mut Dice) -> i64 {
    let size = LIMIT + dice.of(&[-2, -1, 0, 0, 1]);
    turned(dice, size)
}

pub fn turned(dice: &mut Dice, number: i64) -> i64 {
    if dice.once_in(2) {
        number
    } else {
        number.wrapping_neg()
    }
}

/// Far outside, up to both ends of an i64.
pub fn wild(dice: &mut Dice) -> i64 {
    let size = dice.any() as i64;
    let number = dice.of(&[i64::MIN, i64::MIN + 1, i64::MAX, i64::MAX - 1, LIMIT * 2, size, size]);
    turned(dice, number)
}
