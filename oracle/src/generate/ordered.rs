//! Ours: random lines of `ordered` and of `figure`, over the layouts of `reduce` and over ones of a few values.
//!
//! One product is carried through all of a range, and once it is zero or infinite it hardly changes any more. So most
//! values are drawn in visiting order, each by where it is to lead the product: down among the subnormal numbers and
//! up again, to the greatest doubles, or about 1.

use super::accumulator::{near_an_end, plain, short, ONE};
use super::axes::Axes;
use super::rates::{self, between, Minus, LEAST_SUBNORMAL};
use super::reduce::{self, Call, MOST_VALUES};
use super::Dice;

/// Where a line leads its product: its exponent after each value, from and to. Within these no product is zero or
/// infinite.
const STRETCHES: [&[(i64, i64)]; 7] = [
    &[(-1074, -1015)],
    &[(-1074, -1070), (-1074, -1015)],
    &[(-1074, -1015), (-60, 60)],
    &[(-1024, -1021)],
    &[(1015, 1021)],
    &[(-1074, 1021)],
    &[(-3, 3)],
];

/// Exponents at which a product becomes zero, subnormal or infinite, or just not.
const LIMITS: [i64; 9] = [-1077, -1076, -1075, -1074, -1023, -1022, 1022, 1023, 1024];

pub fn line(dice: &mut Dice) -> String {
    drawn(dice).text()
}

pub fn drawn(dice: &mut Dice) -> Call {
    let axes = if dice.once_in(3) { few(dice) } else { reduce::drawn_axes(dice) };
    let mut call = Call::over(dice, axes, &["ordered", "figure"], MOST_VALUES);
    if dice.once_in(2) {
        call.put_some(dice, false, rates::bad_of_any_pattern);
    }
    if !dice.once_in(5) {
        lead(dice, &mut call);
    }
    if dice.once_in(8) {
        call.put(dice, rates::subnormal);
    }
    if dice.once_in(4) {
        call.put(dice, rates::bad_of_any_pattern);
    }
    call
}

/// Two to eight elements in one run or in two, with a gap or without.
pub fn few(dice: &mut Dice) -> Axes {
    let stride = dice.of(&[1, 1, 1, 2, -1, 0, -3]);
    if dice.once_in(2) {
        return Axes { sizes: vec![2 + dice.below(7)], strides: vec![stride] };
    }
    let length = 1 + dice.below(4);
    let pitch = stride * length as i64 + dice.of(&[0, 1, 5]);
    Axes { sizes: vec![length, 2], strides: vec![stride, pitch] }
}

/// Each visited value is drawn anew by where it leads the product when it is first visited.
fn lead(dice: &mut Dice, call: &mut Call) {
    let Some(visited) = call.visited() else { return };
    let way = Way::drawn(dice);
    let mut given = vec![false; call.values.len()];
    let mut product = 1f64;
    for (count, &place) in visited.iter().enumerate() {
        if !given[place] {
            let last = count + 1 == visited.len();
            call.values[place] = way.value(dice, product, last);
            given[place] = true;
        }
        product *= f64::from_bits(call.values[place]);
    }
}

/// How a line's product is led.
struct Way {
    stretches: &'static [(i64, i64)],
    /// The least exponent of a value: in half of the lines none is subnormal by this.
    least: i64,
    significand: fn(&mut Dice) -> u64,
    minus: Minus,
    /// Whether the last value leads the product to a limit.
    to_limit: bool,
}

impl Way {
    fn drawn(dice: &mut Dice) -> Way {
        Way {
            stretches: dice.of(&STRETCHES),
            least: dice.of(&[rates::LEAST, LEAST_SUBNORMAL]),
            significand: dice.of(&[plain, short, few_bits, any_significand]),
            minus: Minus::drawn(dice),
            to_limit: dice.once_in(2),
        }
    }

    /// A value that brings the product to the exponent that is drawn, or to the next, or as near as a value can.
    fn value(&self, dice: &mut Dice, product: f64, last: bool) -> u64 {
        let wanted = if last && self.to_limit {
            dice.of(&LIMITS)
        } else {
            let (least, most) = dice.of(self.stretches);
            between(dice, least, most)
        };
        let e = (wanted - exponent(product)).clamp(self.least, rates::MOST);
        rates::rate_or_subnormal((self.significand)(dice), e) + self.minus.sign(dice)
    }
}

/// The exponent of the highest bit; of a zero one less than any, of an infinity or a NaN one more.
fn exponent(product: f64) -> i64 {
    let size = product.abs().to_bits();
    match (size >> 52) as i64 {
        0 => LEAST_SUBNORMAL + 63 - i64::from(size.leading_zeros()),
        field => field - 1023,
    }
}

/// A significand of at most three bits: of the products among the subnormal numbers many are ties.
fn few_bits(dice: &mut Dice) -> u64 {
    dice.of(&[4, 4, 5, 6, 7]) * (ONE / 4)
}

fn any_significand(dice: &mut Dice) -> u64 {
    dice.of(&[plain, short, near_an_end, few_bits])(dice)
}
