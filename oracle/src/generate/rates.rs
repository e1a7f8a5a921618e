//! Ours: random rates, as bits. A line of rates is of one kind, or of all of them by turns. Most lines have no
//! subnormal, since only these are compared with the source.

use super::accumulator::{near_an_end, plain, short, with_zeros, ONE, SIGN};
use super::Dice;

/// The exponents of the bounds within which a block of 64 is multiplied unsplit, and of the normal numbers.
const BLOCK: i64 = 120;
pub const LEAST: i64 = -1022;
pub const MOST: i64 = 1023;

/// The exponent of the least subnormal number.
pub const LEAST_SUBNORMAL: i64 = -1074;

const INFINITE: u64 = 2047 << 52;
const NAN: u64 = INFINITE + ONE / 2;

/// Draws a rate without its sign.
type Kind = fn(&mut Dice) -> u64;

const NORMAL_KINDS: [Kind; 15] = [
    keep,
    keep,
    near_one,
    common,
    inside_a_block,
    large,
    little,
    too_large,
    too_little,
    any_normal,
    short_product,
    half_product,
    at_a_bound,
    seldom_at_a_bound,
    tiny_or_huge,
];

/// Kinds of lines in which all rates are subnormal, or about half of them, or a few.
const SUBNORMAL_KINDS: [Kind; 4] = [subnormal_size, about_the_least, among_keep_rates, seldom_among_common];

/// So many rates, none of them bad. In some lines a few are negative, in others half of them.
pub fn drawn(dice: &mut Dice, count: u64) -> Vec<u64> {
    let kinds: &[Kind] = if dice.once_in(6) { &SUBNORMAL_KINDS } else { &NORMAL_KINDS };
    let kind = kinds.get(dice.below(kinds.len() as u64 + 2) as usize).copied();
    let minus = Minus::drawn(dice);
    let mut rates = Vec::new();
    for _ in 0..count {
        let draw = kind.unwrap_or_else(|| dice.of(kinds));
        let size = draw(dice);
        rates.push(size + minus.sign(dice));
    }
    rates
}

/// How many rates of a line are negative: one in so many, or with 0 none.
pub struct Minus(u64);

impl Minus {
    pub fn drawn(dice: &mut Dice) -> Minus {
        Minus(dice.of(&[0, 0, 2, 50]))
    }

    pub fn sign(&self, dice: &mut Dice) -> u64 {
        if self.0 > 0 && dice.once_in(self.0) {
            SIGN
        } else {
            0
        }
    }
}

/// A zero, an infinity or the NaN, which has one pattern here: the Rust keeps a NaN's own fraction and sign, and the
/// engine has none of these.
pub fn bad(dice: &mut Dice) -> u64 {
    let size = match dice.below(5) {
        0 | 1 => 0,
        2 => INFINITE,
        _ => return NAN,
    };
    size + dice.of(&[0, SIGN])
}

/// A subnormal of either sign.
pub fn subnormal(dice: &mut Dice) -> u64 {
    subnormal_size(dice) + dice.of(&[0, SIGN])
}

/// A bad rate, a NaN with any pattern: for calls whose answers hold nothing of the pattern.
pub fn bad_of_any_pattern(dice: &mut Dice) -> u64 {
    match bad(dice) {
        NAN => INFINITE + dice.of(&[1, ONE / 2 - 1, ONE / 2, ONE / 2 + 1, ONE - 1]) + dice.of(&[0, SIGN]),
        other => other,
    }
}

/// The same rate with another exponent, as near to the wanted one as a normal number can have, and what is still
/// wanted then. A subnormal stays as it is.
pub fn moved(rate: u64, wanted: i64) -> (u64, i64) {
    let field = (rate >> 52 & 2047) as i64;
    if field == 0 {
        return (rate, wanted);
    }
    let new = (field + wanted).clamp(1, 2046);
    (rate & !(2047 << 52) | (new as u64) << 52, wanted - (new - field))
}

pub fn rate(significand: u64, e: i64) -> u64 {
    (((e + 1023) as u64) << 52) + (significand - ONE)
}

/// From 2^-1074 on: below the normal numbers the last bits of the significand are cut off.
pub fn rate_or_subnormal(significand: u64, e: i64) -> u64 {
    if e < LEAST {
        significand >> (LEAST - e)
    } else {
        rate(significand, e)
    }
}

/// From `least` to `most`.
pub fn between(dice: &mut Dice, least: i64, most: i64) -> i64 {
    least + dice.below((most - least + 1) as u64) as i64
}

/// A keep rate from 0.9 to 1.
fn keep(dice: &mut Dice) -> u64 {
    let (low, high) = (0.9f64.to_bits(), 1f64.to_bits());
    low + dice.below(high - low + 1)
}

/// At most 2^30 doubles beside 1.
fn near_one(dice: &mut Dice) -> u64 {
    let bits = dice.below(31);
    let step = dice.below(1 << bits);
    let one = 1f64.to_bits();
    if dice.once_in(2) {
        one + step
    } else {
        one - step
    }
}

fn common(dice: &mut Dice) -> u64 {
    rate(plain(dice), between(dice, -4, 4))
}

fn inside_a_block(dice: &mut Dice) -> u64 {
    rate(plain(dice), between(dice, -BLOCK, BLOCK - 1))
}

/// About the upper bound of a block. Eight of 2^128 in one lane would pass every double.
fn large(dice: &mut Dice) -> u64 {
    rate(plain(dice), between(dice, BLOCK - 4, BLOCK + 16))
}

/// About the lower bound of a block.
fn little(dice: &mut Dice) -> u64 {
    rate(plain(dice), between(dice, -BLOCK - 16, -BLOCK + 4))
}

/// All a little above what a block may hold: eight in one lane pass every double, so a bound that is too wide is seen.
fn too_large(dice: &mut Dice) -> u64 {
    rate(plain(dice), between(dice, BLOCK + 8, BLOCK + 9))
}

/// All a little below it: eight in one lane come to a subnormal or to zero.
fn too_little(dice: &mut Dice) -> u64 {
    rate(plain(dice), between(dice, -BLOCK - 10, -BLOCK - 9))
}

pub fn any_normal(dice: &mut Dice) -> u64 {
    rate(plain(dice), between(dice, LEAST, MOST))
}

/// A significand of a few bits: their products are exact for a while, and the first that is not is often a tie.
fn short_product(dice: &mut Dice) -> u64 {
    rate(short(dice), between(dice, -40, 40))
}

/// A power of two, or a significand of 26 or 27 bits: two of these in one lane are often a tie.
fn half_product(dice: &mut Dice) -> u64 {
    if dice.once_in(4) {
        let zeros = 25 + dice.below(3);
        rate(with_zeros(dice, zeros), between(dice, -9, 9))
    } else {
        rate(ONE, between(dice, -9, 9))
    }
}

/// A bound of a block, or the double above or below it.
fn at_a_bound(dice: &mut Dice) -> u64 {
    let bound = dice.of(&[rate(ONE, BLOCK), rate(ONE, -BLOCK)]);
    bound + dice.of(&[0, 0, 1]) - dice.of(&[0, 0, 1])
}

/// So seldom that most blocks of 64 have none or one.
fn seldom_at_a_bound(dice: &mut Dice) -> u64 {
    match dice.below(120) {
        0 => at_a_bound(dice),
        1 => any_normal(dice),
        _ => common(dice),
    }
}

/// At the least or the greatest normal numbers.
fn tiny_or_huge(dice: &mut Dice) -> u64 {
    let near = dice.below(3) as i64;
    let e = dice.of(&[LEAST + near, MOST - near]);
    let significand = if dice.once_in(2) { near_an_end(dice) } else { plain(dice) };
    rate(significand, e)
}

/// A subnormal. How many digits it has is drawn first, so that every shift to the leading place is alike frequent: any
/// fraction of so many digits, or the least or the greatest.
fn subnormal_size(dice: &mut Dice) -> u64 {
    let least = 1 << dice.below(52);
    match dice.below(6) {
        0 => least,
        1 => 2 * least - 1,
        2 => dice.of(&[1, 2, 3, ONE / 2 - 1, ONE / 2, ONE - 1]),
        _ => least + dice.below(least),
    }
}

/// The least normal numbers and the greatest subnormal ones, and now and then the least of these.
fn about_the_least(dice: &mut Dice) -> u64 {
    match dice.below(8) {
        0 => 1 + dice.below(4),
        1 => ONE / 2 - 2 + dice.below(4),
        2 => rate(plain(dice), between(dice, LEAST, LEAST + 1)),
        3 => ONE / 2 + dice.below(ONE / 2),
        _ => ONE - 3 + dice.below(6),
    }
}

fn among_keep_rates(dice: &mut Dice) -> u64 {
    if dice.once_in(30) {
        subnormal_size(dice)
    } else {
        keep(dice)
    }
}

/// So seldom that most blocks of 64 have none; beside it rates that bring its product back among the doubles.
fn seldom_among_common(dice: &mut Dice) -> u64 {
    match dice.below(200) {
        0 => subnormal_size(dice),
        1 => rate(plain(dice), between(dice, 900, MOST)),
        _ => common(dice),
    }
}
