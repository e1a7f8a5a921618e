//! Ours: ranges that visit a subnormal, which the source marks as bad and the rules count.
//!
//! The source's accumulators count for nothing there, so these are made here, from the rules alone and in whole
//! numbers: no two floats are multiplied. What is shared with the source is its loop, for which values are visited. The
//! rule itself holds for every range, and where assertions are on, it is held against the source on all the others
//! (`rules::product`).

use crate::erased::calls::{self, Acc, Layout};
use crate::rules;

const LANES: usize = 8;

/// Significands have 53 binary digits: from 2^52 up to 2^53, which is left out.
const ONE: u64 = 1 << 52;
const TWO: u64 = 1 << 53;

pub fn is_subnormal(value: f64) -> bool {
    let size = value.to_bits() % (1 << 63);
    0 < size && size < ONE
}

/// Zero, infinite or a NaN: what rule A2 marks.
pub fn is_bad(value: f64) -> bool {
    let size = value.to_bits() % (1 << 63);
    size == 0 || size >= 2047 * ONE
}

/// The visited values, in the order of the source's loop.
fn visited<'a>(layout: &Layout, base: i64, range: (u64, u64), values: &'a [f64]) -> impl Iterator<Item = f64> + 'a {
    let offsets = calls::visited(layout, base, range, values.len() as u64);
    offsets.into_iter().map(|offset| values[offset as usize])
}

/// Whether an accepted range visits a subnormal. Most tables have none, and then the loop is not gone through.
pub fn is_visited(layout: &Layout, base: i64, range: (u64, u64), values: &[f64]) -> bool {
    values.iter().copied().any(is_subnormal) && visited(layout, base, range, values).any(is_subnormal)
}

/// A sign, a significand and an exponent, for the value significand × 2^(e - 52) with the sign; and the mark.
#[derive(Clone, Copy)]
struct Factor {
    minus: bool,
    significand: u64,
    e: i64,
    bad: bool,
}

impl Factor {
    const IDENTITY: Factor = Factor { minus: false, significand: ONE, e: 0, bad: false };

    /// Rule A2. A subnormal has its highest one brought to the leading place, and e goes down by one for each place.
    fn of(value: f64) -> Factor {
        let bits = rules::one_nan(value).to_bits();
        let (field, fraction) = (bits / ONE % 2048, bits % ONE);
        let mut significand = ONE + fraction;
        let mut e = field as i64 - 1023;
        if is_subnormal(value) {
            (significand, e) = (fraction, -1022);
            while significand < ONE {
                significand *= 2;
                e -= 1;
            }
        }
        Factor { minus: bits / (1 << 63) == 1, significand, e, bad: is_bad(value) }
    }

    /// Rule W1, for bad ones too; the product has their mark.
    fn times(self, right: Factor) -> Factor {
        let product = u128::from(self.significand) * u128::from(right.significand);
        let mut e = self.e + right.e;
        let mut divisor = 1u128 << 52;
        if product >= 1 << 105 {
            divisor *= 2;
            e += 1;
        }
        let (quotient, twice_left) = ((product / divisor) as u64, product % divisor * 2);
        let up = twice_left > divisor || (twice_left == divisor && quotient % 2 == 1);
        let mut significand = quotient + u64::from(up);
        if significand == TWO {
            significand = ONE;
            e += 1;
        }
        Factor { minus: self.minus != right.minus, significand, e, bad: self.bad || right.bad }
    }

    /// Rule A3.
    fn join(self, right: Factor) -> Factor {
        if self.bad || right.bad {
            Factor { bad: true, ..self }
        } else {
            self.times(right)
        }
    }

    fn acc(self) -> Acc {
        let sign = u64::from(self.minus) << 63;
        Acc { m: f64::from_bits(sign + 1023 * ONE + (self.significand - ONE)), e: self.e, bad: self.bad }
    }
}

/// Rules A4 and A5. Blocks and bringing back change no product, so the two differ in bad values alone: at stride 1
/// these are multiplied like others, and at other strides a lane keeps what it had before its first one.
fn piece(values: impl Iterator<Item = f64>, stride: i64) -> Factor {
    let then = if stride == 1 { Factor::times } else { Factor::join };
    let mut lanes = [Factor::IDENTITY; LANES];
    for (i, value) in values.enumerate() {
        lanes[i % LANES] = then(lanes[i % LANES], Factor::of(value));
    }
    lanes.into_iter().fold(Factor::IDENTITY, then)
}

/// Rule A6, for an accepted range.
pub fn product(layout: &Layout, base: i64, range: (u64, u64), values: &[f64]) -> Acc {
    let (mut next, end) = range;
    let mut visited = visited(layout, base, range, values);
    let mut whole: Option<Factor> = None;
    while next < end {
        let past = end.min((next / layout.run_len + 1) * layout.run_len);
        let part = piece(visited.by_ref().take((past - next) as usize), layout.run_stride);
        whole = Some(whole.map_or(part, |left| left.join(part)));
        next = past;
    }
    whole.expect("an accepted range has a piece").acc()
}
