//! Ours: random lines of `ranges`, over the layouts of `reduce`, over many short runs and over few values.
//!
//! The lists are what workers get, and others; most are accepted, since nothing is written at the first faulty range.
//! The buffers hold what no reduction gives, so that it is seen which places were written.

use super::accumulator::{outside, wild};
use super::reduce::{self, Call, MOST_VALUES, MOST_VISITED};
use super::step::{no_elements, short_runs};
use super::{axes, floats_text, items_text, ordered, rates, Dice};
use crate::ranges::{Buffers, Ranges};
use crate::rules;

/// The most ranges of a list, before faulty ones are put into it.
const MOST_RANGES: u64 = 12;

type List = Vec<(u64, u64)>;

pub fn line(dice: &mut Dice) -> String {
    let (call, ranges, buffers) = drawn(dice);
    text(&call, &ranges, &buffers)
}

/// A layout with its values, the ranges over it and the buffers. The call's own range counts for nothing.
pub fn drawn(dice: &mut Dice) -> (Call, Ranges, Buffers) {
    let mut call = drawn_call(dice);
    let total = call.axes.total(dice);
    let mut list = drawn_list(dice, &call, total);
    for _ in 0..dice.of(&[0, 0, 1, 2]) {
        let other = dice.of(&[rates::bad, rates::bad, rates::subnormal]);
        put_into_one(dice, &mut call, &list, other);
    }
    if dice.once_in(6) {
        put_faulty(dice, &mut list, total);
    }
    let buffers = drawn_buffers(dice, list.len());
    let (starts, ends) = list.into_iter().unzip();
    let mut ranges = Ranges { starts, ends };
    if dice.once_in(40) {
        uneven(dice, &mut ranges);
    }
    (call, ranges, buffers)
}

pub fn text(call: &Call, ranges: &Ranges, buffers: &Buffers) -> String {
    let (axes, base) = (call.axes.text(), call.range.base);
    let lists = items_text(&ranges.starts) + &items_text(&ranges.ends);
    format!("ranges{axes} {base}{lists}{}{}", floats_text(&call.values), buffers.text())
}

fn drawn_call(dice: &mut Dice) -> Call {
    let axes = match dice.below(26) {
        0 => no_elements(dice),
        1..=3 => ordered::few(dice),
        4..=9 => short_runs(dice),
        10 | 11 => axes::tied(dice),
        _ => reduce::drawn_axes(dice),
    };
    Call::over(dice, axes, &["ranges"], MOST_VALUES)
}

/// One of the ranges gets another rate, or the elements beside it do.
fn put_into_one(dice: &mut Dice, call: &mut Call, list: &List, other: fn(&mut Dice) -> u64) {
    if !list.is_empty() {
        (call.range.start, call.range.end) = dice.of(list);
        call.put(dice, other);
    }
}

// ---- ranges

/// The shares of workers, ranges that overlap, some of them again and again, single elements, the whole several times.
/// A layout without elements has no range that is accepted, so half of its lists are empty.
fn drawn_list(dice: &mut Dice, call: &Call, total: u64) -> List {
    let count = 1 + dice.below(MOST_RANGES);
    if dice.once_in(if total == 0 { 2 } else { 14 }) {
        return List::new();
    }
    let whole = stretch(dice, total.max(1));
    let mut list = match dice.below(9) {
        0..=2 => shares(dice, call, whole, count),
        3 | 4 => (0..count).map(|_| any_range(dice, whole)).collect(),
        5 => {
            let few: List = (0..3).map(|_| any_range(dice, whole)).collect();
            (0..count).map(|_| dice.of(&few)).collect()
        }
        6 => (0..count).map(|_| any_element(dice, whole)).collect(),
        7 => (0..count).map(|_| dice.of(&[any_range, any_element, all_of_it])(dice, whole)).collect(),
        _ => vec![whole; count as usize],
    };
    if dice.once_in(4) {
        dice.shuffle(&mut list);
    }
    list
}

/// All the elements, or as many as may be visited, from anywhere on.
fn stretch(dice: &mut Dice, total: u64) -> (u64, u64) {
    if total <= MOST_VISITED {
        return (0, total);
    }
    let last = total - MOST_VISITED;
    let any = dice.below(last + 1);
    let start = dice.of(&[0, last, any]);
    (start, start + MOST_VISITED)
}

/// One behind the other: alike in length, cut anywhere, or cut where runs begin.
fn shares(dice: &mut Dice, call: &Call, whole: (u64, u64), count: u64) -> List {
    let (start, end) = whole;
    let run = match rules::compile(&call.axes.sizes, &call.axes.strides) {
        Ok(layout) if dice.once_in(3) => layout.run_len.max(1),
        _ => 1,
    };
    let alike = dice.once_in(2);
    let mut cuts = vec![start, end];
    for number in 1..count {
        let moved = if alike { (end - start) * number / count } else { dice.below(end - start) };
        cuts.push(((start + moved) / run * run).max(start));
    }
    cuts.sort_unstable();
    cuts.dedup();
    cuts.windows(2).map(|pair| (pair[0], pair[1])).collect()
}

fn any_range(dice: &mut Dice, whole: (u64, u64)) -> (u64, u64) {
    let (start, end) = whole;
    let first = start + dice.below(end - start);
    (first, first + 1 + dice.below(end - first))
}

fn any_element(dice: &mut Dice, whole: (u64, u64)) -> (u64, u64) {
    let (start, end) = whole;
    let any = start + dice.below(end - start);
    let element = dice.of(&[start, end - 1, any, any]);
    (element, element + 1)
}

fn all_of_it(_: &mut Dice, whole: (u64, u64)) -> (u64, u64) {
    whole
}

// ---- faults

/// One faulty range at any place, or two, of which either may come first.
fn put_faulty(dice: &mut Dice, list: &mut List, total: u64) {
    let kinds: &[fn(&mut Dice, u64) -> (u64, u64)] = match dice.below(4) {
        0 => &[empty],
        1 => &[past_end],
        2 => &[empty, past_end],
        _ => &[past_end, empty],
    };
    let mut from = 0;
    for kind in kinds {
        let place = from + dice.below((list.len() - from) as u64 + 1) as usize;
        list.insert(place, kind(dice, total));
        from = place + 1;
    }
}

/// Refused by 5, and by 6 too if its end were looked at first.
fn empty(dice: &mut Dice, total: u64) -> (u64, u64) {
    let any = dice.below(total + 1);
    let end = dice.of(&[any, any, 0, total, total + 1, u64::MAX]);
    let start = end.saturating_add(dice.of(&[0, 0, 1, 2, 1 << 32, u64::MAX]));
    (start, end)
}

/// Refused by 6 alone.
fn past_end(dice: &mut Dice, total: u64) -> (u64, u64) {
    let end = dice.of(&[total + 1, total + 1, total + 1, total + 2, total + (1 << 32), 1 << 63, u64::MAX]);
    let any = dice.below(total + 1);
    (dice.of(&[any, any, 0, total, end - 1]), end)
}

/// One list is longer than the other by a range or by several.
fn uneven(dice: &mut Dice, ranges: &mut Ranges) {
    let list = if dice.once_in(2) { &mut ranges.starts } else { &mut ranges.ends };
    match dice.below(4) {
        0 => list.push(dice.any()),
        1 => list.clear(),
        _ => list.truncate(list.len().saturating_sub(1)),
    }
}

// ---- buffers

/// Mostly a place for each of so many accumulators, and in each buffer by itself a few more; now and then one of the
/// three is short.
pub fn drawn_buffers(dice: &mut Dice, count: usize) -> Buffers {
    let mut places = [0; 3].map(|_| count + dice.of(&[0, 0, 0, 0, 1, 2, 5]));
    if dice.once_in(20) {
        let short = dice.below(count as u64 + 1) as usize;
        places[dice.below(3) as usize] = dice.of(&[count.saturating_sub(1), count.saturating_sub(1), short, 0]);
    }
    Buffers {
        ms: (0..places[0]).map(|_| rules::one_nan(f64::from_bits(outside(dice)))).collect(),
        es: (0..places[1]).map(|_| wild(dice)).collect(),
        bads: (0..places[2]).map(|_| dice.of(&[0, 1, 2, 7, 128, 255])).collect(),
    }
}
