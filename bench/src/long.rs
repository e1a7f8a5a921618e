//! Long pieces, in stretches of one kind of rate each: the engine tries, leaves and takes up again each of its ways.

use crate::generate::Dice;
use crate::job::Job;

/// At most so many values a stretch, and so many stretches.
const STRETCH: u64 = 3000;
const STRETCHES: u64 = 8;

type Rate = fn(&mut Dice) -> f64;

fn unit(dice: &mut Dice) -> f64 {
    1.0 + (dice.next() >> 11) as f64 / (1u64 << 53) as f64
}

fn keep(dice: &mut Dice) -> f64 {
    unit(dice) * 0.5
}

fn signed(dice: &mut Dice) -> f64 {
    unit(dice) * dice.of(&[-1.0, -0.5, 0.5, 1.0])
}

fn low(dice: &mut Dice) -> f64 {
    unit(dice) * 2f64.powi(-(dice.below(40) as i32))
}

fn lower(dice: &mut Dice) -> f64 {
    unit(dice) * 2f64.powi(-(dice.below(130) as i32)) * dice.of(&[-1.0, 1.0])
}

fn large(dice: &mut Dice) -> f64 {
    unit(dice) * 2f64.powi(dice.below(40) as i32)
}

/// Any exponent that is a normal number's.
fn wild(dice: &mut Dice) -> f64 {
    unit(dice) * 2f64.powi(dice.below(2040) as i32 - 1020)
}

/// Any subnormal, of either sign; every count of its digits is alike frequent.
fn subnormal(dice: &mut Dice) -> f64 {
    let least = 1 << dice.below(52);
    f64::from_bits(least + dice.below(least)) * dice.of(&[-1.0, 1.0])
}

/// Keep rates, and now and then a subnormal.
fn seldom_subnormal(dice: &mut Dice) -> f64 {
    if dice.below(100) == 0 {
        subnormal(dice)
    } else {
        keep(dice)
    }
}

/// Keep rates, and now and then one that is bad.
fn spoiled(dice: &mut Dice) -> f64 {
    if dice.below(300) == 0 {
        dice.of(&[0.0, -0.0, f64::NAN, f64::INFINITY, f64::NEG_INFINITY])
    } else {
        keep(dice)
    }
}

const RATES: [Rate; 12] =
    [keep, keep, signed, signed, low, lower, large, wild, spoiled, spoiled, subnormal, seldom_subnormal];

/// Several stretches, one behind another.
pub fn stretches(dice: &mut Dice) -> Vec<f64> {
    let mut values = Vec::new();
    for _ in 0..1 + dice.below(STRETCHES) {
        let rate = dice.of(&RATES);
        let count = 1 + dice.below(STRETCH);
        values.extend((0..count).map(|_| rate(dice)));
    }
    values
}

/// A call on one piece, at any stride but 0.
pub fn drawn(dice: &mut Dice) -> Job {
    let values = stretches(dice);
    let stride: i64 = dice.of(&[1, 1, 1, -1, 2, 3]);
    let count = (values.len() as u64).div_ceil(stride.unsigned_abs());
    let base = if stride < 0 { values.len() as i64 - 1 } else { 0 };
    Job::new(&[(count, stride)], count, vec![base], values)
}
