//! Ours: random lines of `compile` and of `list`.

use super::axes::{self, Axes};
use super::{items_text, Dice};
use crate::rules;

pub fn line(dice: &mut Dice) -> String {
    if dice.once_in(3) {
        compile_line(dice)
    } else {
        list_line(dice)
    }
}

fn compile_line(dice: &mut Dice) -> String {
    let mut axes = match dice.below(10) {
        0 | 1 => axes::small(dice),
        7 => axes::crowded(dice),
        8 | 9 => axes::tied(dice),
        2 => axes::mixed(dice),
        3 | 4 => axes::edge(dice),
        _ => axes::wild(dice),
    };
    if dice.once_in(25) {
        axes::uneven(dice, &mut axes);
    }
    format!("compile{}", axes.text())
}

fn list_line(dice: &mut Dice) -> String {
    let mut axes = match dice.below(19) {
        0 => axes::wild(dice),
        1 => axes::edge(dice),
        2 | 3 => axes::mixed(dice),
        4 => axes::crowded(dice),
        5..=7 => axes::tied(dice),
        _ => axes::small(dice),
    };
    if dice.once_in(60) {
        axes::uneven(dice, &mut axes);
    }
    let total = axes.total(dice);
    let (start, end) = axes::range(dice, total);
    let (base, length) = fit(dice, &axes);
    let buffer = buffer(dice, end.saturating_sub(start));
    format!("list{} {base} {start} {end} {length}{}", axes.text(), items_text(&buffer))
}

/// A base and a length by which the layout fits exactly, with room, or not by one.
fn fit(dice: &mut Dice, axes: &Axes) -> (i64, u64) {
    let (low, high) = rules::ends(&axes.sizes, &axes.strides, 0);
    let (low, high) = (low.max(-(1 << 100)), high.min(1 << 100));
    let base = match dice.below(30) {
        0 => -low - 1,
        1 => -low + 1,
        2 => 0,
        3 => i128::from(i64::MAX) - high,
        4 => i128::from(i64::MAX) - high + 1,
        5 => -i128::from(dice.any()),
        6..=9 => -low + i128::from(dice.below(1000)),
        _ => -low,
    };
    let base = base.clamp(i128::from(i64::MIN), i128::from(i64::MAX));
    let enough = base + high + 1;
    let length = match dice.below(30) {
        0 => enough - 1,
        1 => 0,
        2 => i128::from(dice.any()),
        3..=5 => i128::from(u64::MAX) - i128::from(dice.below(2)),
        6..=9 => enough + i128::from(dice.below(1000)),
        _ => enough,
    };
    (base as i64, length.clamp(0, i128::from(u64::MAX)) as u64)
}

/// Mostly exactly as long as the range, or longer; now and then one short or empty.
fn buffer(dice: &mut Dice, wanted: u64) -> Vec<i64> {
    let count = match dice.below(24) {
        0 => wanted.saturating_sub(1),
        1 => 0,
        2..=6 => wanted.saturating_add(1 + dice.below(3)),
        _ => wanted,
    };
    let plain = dice.once_in(2);
    let first = dice.any() as i64;
    let count = if count > 4096 { dice.below(4) } else { count };
    let mut place = |at: u64| if plain { -1 - at as i64 } else { dice.any() as i64 ^ first };
    (0..count).map(&mut place).collect()
}
