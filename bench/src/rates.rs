//! The values that are timed: random rates, the same in every run.

use crate::generate::Dice;

const BLOCK: usize = 64;

/// What the rates are drawn from.
#[derive(Clone, Copy)]
pub enum Rates {
    /// Keep rates as they are met: at least 0.9, below 1.
    Keep,
    /// At least 0.5, below 2: whether a lane is halved cannot be foreseen.
    Spread,
    /// Keep rates of both signs.
    Signed,
    /// Keep rates so near to 1 that the product of a million is a normal number.
    Near,
}

impl Rates {
    pub fn name(self) -> &'static str {
        match self {
            Rates::Keep => "[0.9, 1)",
            Rates::Spread => "[0.5, 2)",
            Rates::Signed => "±[0.9, 1)",
            Rates::Near => "[0.9999, 1)",
        }
    }

    pub fn one(self, dice: &mut Dice) -> f64 {
        let part = (dice.next() >> 11) as f64 / (1u64 << 53) as f64;
        match self {
            Rates::Keep => (0.9 + 0.1 * part).min(1.0 - f64::EPSILON),
            Rates::Spread => (1.0 + part) * dice.of(&[0.5, 1.0]),
            Rates::Signed => (0.9 + 0.1 * part).min(1.0 - f64::EPSILON) * dice.of(&[-1.0, 1.0]),
            Rates::Near => (0.9999 + 0.0001 * part).min(1.0 - f64::EPSILON),
        }
    }

    pub fn draw(self, count: usize) -> Vec<f64> {
        let mut dice = Dice::new(count as u64);
        (0..count).map(|_| self.one(&mut dice)).collect()
    }

    /// So many, each of them times `scale`.
    pub fn scaled(self, count: usize, scale: f64) -> Vec<f64> {
        self.draw(count).into_iter().map(|rate| rate * scale).collect()
    }

    /// One rate in each block of 64, at a place that varies, becomes `other` of it.
    pub fn with_one_a_block(self, count: usize, other: fn(f64) -> f64) -> Vec<f64> {
        let mut values = self.draw(count);
        let mut dice = Dice::new(1);
        for block in values.chunks_mut(BLOCK) {
            let place = dice.below(block.len() as u64) as usize;
            block[place] = other(block[place]);
        }
        values
    }
}
