//! Ours: random axes and ranges, shared by every kind of line that has a layout.

use super::{items_text, Dice};
use crate::rules;

pub struct Axes {
    pub sizes: Vec<u64>,
    pub strides: Vec<i64>,
}

impl Axes {
    /// Pairs of a size and a stride, in any order.
    pub fn shuffled(dice: &mut Dice, mut axes: Vec<(u64, i64)>) -> Axes {
        dice.shuffle(&mut axes);
        let (sizes, strides) = axes.into_iter().unzip();
        Axes { sizes, strides }
    }

    /// The number of elements, or a small number for a layout that is refused.
    pub fn total(&self, dice: &mut Dice) -> u64 {
        rules::compile(&self.sizes, &self.strides).map_or(dice.below(9), |layout| layout.total)
    }

    /// Both lists, each with its count, and a space before each word.
    pub fn text(&self) -> String {
        items_text(&self.sizes) + &items_text(&self.strides)
    }
}

fn axis_count(dice: &mut Dice) -> usize {
    dice.of(&[0, 1, 1, 2, 2, 2, 3, 3, 3, 3, 4, 4, 4, 5, 5, 6, 7, 8, 8, 9, 9, 12, 15, 16, 17, 18])
}

/// Sizes of a table that a program can hold.
fn small_sizes(dice: &mut Dice, count: usize) -> Vec<u64> {
    let mut total = 1;
    let mut sizes = Vec::new();
    for _ in 0..count {
        let size = if count > 8 { dice.of(&[1, 2, 2, 2]) } else { dice.of(&[1, 2, 2, 2, 3, 3, 4, 5, 7, 8, 16, 40]) };
        let size = if total * size > 4096 { 1 } else { size };
        total *= size;
        sizes.push(size);
    }
    dice.shuffle(&mut sizes);
    sizes
}

/// Products of the sizes that come before in a shuffled order: such axes fuse.
fn contiguous(dice: &mut Dice, sizes: &[u64], first: i64) -> Vec<i64> {
    let mut order: Vec<usize> = (0..sizes.len()).collect();
    dice.shuffle(&mut order);
    let gap_at = if dice.once_in(2) { dice.below(sizes.len() as u64 + 1) as usize } else { 99 };
    let mut strides = vec![0; sizes.len()];
    let mut step = first;
    for (at, &place) in order.iter().enumerate() {
        if at == gap_at {
            step = step.wrapping_mul(dice.of(&[2, 3, -1, -2])).wrapping_add(dice.of(&[0, 0, 1]));
        }
        strides[place] = step;
        step = step.wrapping_mul(sizes[place] as i64);
    }
    strides
}

/// One stride becomes another: turned, zero, equal to a neighbour's in size, a little beside, or anything small.
fn bend(dice: &mut Dice, strides: &mut [i64]) {
    if strides.is_empty() {
        return;
    }
    let place = dice.below(strides.len() as u64) as usize;
    let other = dice.of(strides);
    strides[place] = match dice.below(6) {
        0 => strides[place].wrapping_neg(),
        1 => 0,
        2 => other,
        3 => other.wrapping_neg(),
        4 => strides[place].wrapping_add(dice.of(&[1, -1])),
        _ => dice.below(41) as i64 - 20,
    };
}

pub fn small(dice: &mut Dice) -> Axes {
    let count = axis_count(dice).min(rules::MOST_AXES);
    let sizes = small_sizes(dice, count);
    let first = dice.of(&[1, 1, 1, 1, 2, 3, -1, -1, -3, 1 << 20, 1 << 40]);
    let mut strides = contiguous(dice, &sizes, first);
    for _ in 0..dice.of(&[0, 0, 0, 1, 1, 2, 3]) {
        bend(dice, &mut strides);
    }
    Axes { sizes, strides }
}

/// The stride or its opposite.
fn either_way(dice: &mut Dice, stride: i64) -> i64 {
    if dice.once_in(2) {
        stride.wrapping_neg()
    } else {
        stride
    }
}

/// Axes of one |stride|, forwards and backwards, in any order: which comes first decides what the run is, what fuses,
/// and where each element lies. Now and then a run that one of them meets lies before them, and axes of size 1, of
/// stride 0 and of another |stride| stand among them.
pub fn tied(dice: &mut Dice) -> Axes {
    let mut axes = Vec::new();
    let mut step = dice.of(&[1, 1, 1, 2, 3]);
    if dice.once_in(3) {
        let length = 2 + dice.below(4);
        axes.push((length, either_way(dice, step)));
        step = step * length as i64 + dice.of(&[0, 0, 1]);
    }
    let strides = [step, step, step, -step, -step, -step, 0, 2 * step];
    axes.push((tied_size(dice, step), step));
    axes.push((tied_size(dice, step), -step));
    for _ in 0..dice.of(&[0, 0, 0, 1, 1, 1, 2, 2, 4, 9]) {
        axes.push((tied_size(dice, step), dice.of(&strides)));
    }
    for _ in 0..dice.of(&[0, 0, 1, 2]) {
        axes.push((1, dice.of(&[step, -step, 0, i64::MIN])));
    }
    Axes::shuffled(dice, axes)
}

/// Mostly a few. Where there is room, now and then enough for a block of 64 and a tail.
fn tied_size(dice: &mut Dice, step: i64) -> u64 {
    let size = if dice.once_in(8) { 60 + dice.below(80) } else { dice.of(&[2, 2, 2, 3, 3, 4, 5]) };
    size.min(150 / step as u64)
}

/// As many axes as there are places, or nearly so, most of them of size 2, a few steps apart: few of them fuse, and the
/// digits carry from place to place.
pub fn crowded(dice: &mut Dice) -> Axes {
    let count = rules::MOST_AXES - dice.of(&[0, 0, 0, 1, 2, 4, 7]);
    let sizes = (0..count).map(|_| dice.of(&[1, 2, 2, 2, 2, 2, 2, 3])).collect();
    let strides = (0..count).map(|_| dice.below(15) as i64 - dice.of(&[0, 0, 0, 7])).collect();
    Axes { sizes, strides }
}

fn wild_size(dice: &mut Dice) -> u64 {
    match dice.below(8) {
        0 => 0,
        1 => 1,
        2 | 3 => dice.below(9) + 1,
        4 => dice.near_power(),
        5 => dice.any(),
        6 => u64::MAX - dice.below(3),
        _ => 1 << dice.below(41),
    }
}

fn wild_stride(dice: &mut Dice) -> i64 {
    match dice.below(8) {
        0 => 0,
        1 => i64::MIN,
        2 => i64::MAX - dice.below(2) as i64,
        3 => dice.near_power() as i64,
        4 => (dice.near_power() as i64).wrapping_neg(),
        5 => dice.any() as i64,
        6 => (dice.any() as i64).wrapping_neg(),
        _ => dice.below(9) as i64 - 4,
    }
}

pub fn wild(dice: &mut Dice) -> Axes {
    let count = axis_count(dice);
    let sizes: Vec<u64> = (0..count).map(|_| wild_size(dice)).collect();
    let strides = match dice.below(6) {
        0 | 1 => {
            let first = dice.of(&[1, -1, 3, 1 << 30, 3 << 60]);
            contiguous(dice, &sizes, first)
        }
        // All of one |stride|: a size of 0 hides what is given behind it, not what comes behind it in order.
        2 => {
            let stride = wild_stride(dice);
            (0..count).map(|_| either_way(dice, stride)).collect()
        }
        _ => (0..count).map(|_| wild_stride(dice)).collect(),
    };
    Axes { sizes, strides }
}

/// Small axes with one of them huge at stride 0, of size 1 with a wild stride, or wild altogether.
pub fn mixed(dice: &mut Dice) -> Axes {
    let mut axes = small(dice);
    let place = dice.below(axes.sizes.len() as u64 + 1) as usize;
    let (size, stride) = match dice.below(5) {
        0 => (1 << dice.below(42), 0),
        1 => (dice.near_power(), 0),
        2 => (1, wild_stride(dice)),
        3 => (0, wild_stride(dice)),
        _ => (wild_size(dice), wild_stride(dice)),
    };
    axes.sizes.insert(place, size);
    axes.strides.insert(place, stride);
    axes
}

/// An axis whose span, or whose step × size, lies at the limit of an i64 or beside it.
fn edge_axis(dice: &mut Dice) -> (u64, i64) {
    let bits = dice.below(62);
    let size = (1 << bits) + dice.of(&[0, 1, 1, 2]);
    let stride = (1i64 << (62 - bits)).wrapping_mul(dice.of(&[1, 2, 2])).wrapping_sub(dice.of(&[0, 0, 1]));
    (size, either_way(dice, stride))
}

/// Two axes of one |stride| that go opposite ways, or three, some of which reach to 2^63: forwards this fits only if
/// nothing follows, backwards always. A run may lie before them, and one that meets it may then reach too far.
fn edge_tied(dice: &mut Dice) -> Axes {
    let unit = 1i64 << (60 - dice.below(14));
    let length = dice.of(&[1, 2, 3, 4]);
    let stride = unit * length as i64;
    let full = (1 << 63) / stride as u64;
    let mut axes = Vec::new();
    if dice.once_in(2) {
        axes.push((length, either_way(dice, unit)));
    }
    for stride in [stride, -stride, either_way(dice, stride)].into_iter().take(dice.of(&[2, 2, 2, 3])) {
        axes.push((dice.of(&[full, full, full + 1, full - 1, 2, 2]), stride));
    }
    Axes::shuffled(dice, axes)
}

/// Two axes with 2^40 elements together, or a few more or less.
fn edge_total(dice: &mut Dice) -> Axes {
    let bits = dice.below(41);
    let sizes = vec![1 << bits, (1 << (40 - bits)) + dice.of(&[0, 0, 0, 1])];
    let strides = if dice.once_in(2) { vec![0, 0] } else { contiguous(dice, &sizes, 1) };
    Axes { sizes, strides }
}

/// Layouts at a limit: of the total, of a size, of an axis or of several, with another axis behind it or none.
pub fn edge(dice: &mut Dice) -> Axes {
    let mut axes = match dice.below(5) {
        0 => edge_total(dice),
        1 => Axes { sizes: vec![(1 << 63) - 1 + dice.below(3)], strides: vec![0] },
        2 => edge_tied(dice),
        _ => {
            let (size, stride) = edge_axis(dice);
            Axes { sizes: vec![size], strides: vec![stride] }
        }
    };
    if dice.once_in(3) {
        let place = dice.below(axes.sizes.len() as u64 + 1) as usize;
        let reach = axes.sizes[0].wrapping_mul(axes.strides[0] as u64) as i64;
        axes.sizes.insert(place, dice.of(&[1, 1, 2, 3]));
        axes.strides.insert(place, dice.of(&[0, 1, reach, i64::MIN]));
    }
    axes
}

/// Now and then the two lists differ in number.
pub fn uneven(dice: &mut Dice, axes: &mut Axes) {
    match dice.below(4) {
        0 => {
            axes.sizes.pop();
        }
        1 => {
            axes.strides.pop();
        }
        2 => axes.sizes.push(wild_size(dice)),
        _ => axes.strides.push(wild_stride(dice)),
    }
}

/// Mostly inside the total and short; now and then empty, reversed, past the total, or all of it.
pub fn range(dice: &mut Dice, total: u64) -> (u64, u64) {
    let start = dice.below(total.max(1));
    let room = total.saturating_sub(start);
    let most = dice.of(&[1, 4, 16, 16, 64, 64, 300, 4096]);
    let end = start + dice.below(room.min(most).max(1)) + 1;
    match dice.below(50) {
        0 => (start, start),
        1 => (end, start),
        2 => (start, total.saturating_add(1)),
        3 => (start.saturating_add(total), end.saturating_add(total)),
        4 => (u64::MAX - dice.below(3), u64::MAX),
        5 => (dice.any(), dice.any()),
        6..=12 if total <= 4096 => (0, total),
        _ => (start, end),
    }
}
