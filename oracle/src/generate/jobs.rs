//! Ours: random lines of `write` and of `read`.
//!
//! What is read mostly was written, and then one thing in it was changed, or a few: bytes that come from nowhere are
//! refused at their first word.

use super::axes::Axes;
use super::{items_text, Dice};
use crate::jobs::{self, Job, BASE, END, FINISH, MORE, NEXT, PAYLOAD_BITS, SIZE, STRIDE, WORD_BYTES};
use crate::rules::MOST_AXES;
use std::ops::RangeInclusive;

/// From where on a number needs a second word and a third, leaves an i64, and, as 0, a u64.
const ENDS: [u64; 4] = [1 << PAYLOAD_BITS, 1 << (2 * PAYLOAD_BITS), 1 << 63, 0];

/// The first payload of a number's third word that takes it past 64 bits.
const PAST: u32 = 1 << (64 - 2 * PAYLOAD_BITS);

/// Words of a walk: all of them twice are fewer bytes than a line may have.
const MOST_WALKED: usize = 400;

const CHANGES: [fn(&mut Dice, &mut Vec<u32>); 9] =
    [pad, pad, replace, replace, drop_some, repeat, swap, insert_more, past_64_bits];

pub fn line(dice: &mut Dice) -> String {
    if dice.once_in(3) {
        write_line(dice)
    } else {
        format!("read{}", items_text(&to_read(dice)))
    }
}

fn unsigned(dice: &mut Dice) -> u64 {
    match dice.below(6) {
        0 | 1 => dice.below(9),
        2 => dice.any(),
        3 => dice.near_power(),
        _ => dice.of(&ENDS).wrapping_sub(2).wrapping_add(dice.below(4)),
    }
}

/// The number that is sent as a drawn one: so its words end where those of an unsigned one do.
/// A job of numbers as they are sent, each drawn by `number`.
pub fn drawn(dice: &mut Dice, axes: usize, number: fn(&mut Dice) -> u64) -> Job {
    let signed = |dice: &mut Dice| jobs::signed(u128::from(number(dice)));
    Job {
        sizes: (0..axes).map(|_| number(dice)).collect(),
        strides: (0..axes).map(|_| signed(dice)).collect(),
        base: signed(dice),
        start: number(dice),
        end: number(dice),
    }
}

fn write_line(dice: &mut Dice) -> String {
    let (job, buffer) = to_write(dice);
    let axes = Axes { sizes: job.sizes, strides: job.strides };
    format!("write{} {} {} {}{}", axes.text(), job.base, job.start, job.end, items_text(&buffer))
}

/// A job, and the buffer that it is written into.
pub fn to_write(dice: &mut Dice) -> (Job, Vec<u8>) {
    let axes = dice.of(&[0, 1, 1, 2, 2, 3, 4, 5, 8, 9, 15, 16, 16, 17, 18, 32]);
    let mut job = drawn(dice, axes, unsigned);
    match dice.below(20) {
        0 => job.sizes.truncate(dice.below(axes as u64 + 1) as usize),
        1 => job.strides.truncate(dice.below(axes as u64 + 1) as usize),
        2 if axes < 32 => job.sizes.push(unsigned(dice)),
        3 if axes < 32 => job.strides.push(jobs::signed(u128::from(unsigned(dice)))),
        _ => {}
    }
    let buffer = buffer(dice, jobs::words(&job).len() * WORD_BYTES);
    (job, buffer)
}

/// Mostly as long as the job or a little longer; else short by a byte, a word or more, or empty.
fn buffer(dice: &mut Dice, wanted: usize) -> Vec<u8> {
    let count = match dice.below(12) {
        0 => wanted - 1,
        1 => wanted - 1 - dice.below(WORD_BYTES as u64) as usize,
        2 => dice.below(wanted as u64) as usize,
        3 => 0,
        4..=7 => wanted + 1 + dice.below(9) as usize,
        _ => wanted,
    };
    let filled = dice.of(&[Some(0), Some(255), None, None]);
    (0..count).map(|_| filled.unwrap_or(dice.next() as u8)).collect()
}

/// Bytes to read.
pub fn to_read(dice: &mut Dice) -> Vec<u8> {
    let mut words = match dice.below(8) {
        0 => walk(dice),
        1 | 2 => crowded(dice),
        _ => {
            let axes = dice.of(&[0, 0, 1, 1, 1, 2, 2, 3, 4, 8, 9, 15, 16]);
            jobs::words(&drawn(dice, axes, unsigned))
        }
    };
    for _ in 0..dice.of(&[0, 0, 0, 1, 1, 1, 1, 2, 3]) {
        let change = dice.of(&CHANGES);
        change(dice, &mut words);
    }
    let mut bytes = jobs::bytes_of(&words);
    match dice.below(24) {
        0 => bytes.truncate(dice.below(bytes.len() as u64 + 1) as usize),
        1 => bytes.truncate(bytes.len().saturating_sub(1 + dice.below(9) as usize)),
        2 => bytes.extend((0..=dice.below(9)).map(|_| dice.of(&[0, 0, 192, 255]))),
        3 => bytes.extend_from_within(..),
        4 => bytes = (0..dice.below(60)).map(|_| dice.next() as u8).collect(),
        _ => {}
    }
    bytes
}

/// Words that mostly follow the order, with any payloads. Once in a while a word of any kind stands among them, and
/// behind finish it goes on now and then.
fn walk(dice: &mut Dice) -> Vec<u32> {
    let (last_axis, astray) = (dice.of(&[1, 2, 6, 30]), dice.of(&[12, 60, 1000]));
    let mut words = Vec::new();
    let mut last = 0;
    while words.len() < MOST_WALKED && (last != FINISH || dice.once_in(20)) {
        let next = match NEXT[last as usize] {
            [kind] => *kind,
            [] => MORE,
            _ if dice.once_in(last_axis) => BASE,
            _ => SIZE,
        };
        let kind = if dice.once_in(astray) { dice.below(8) as u32 } else { next };
        let payload = if kind == FINISH && !dice.once_in(20) { 0 } else { payload(dice) };
        words.push(jobs::word(kind, payload));
        if (SIZE..=FINISH).contains(&kind) {
            last = kind;
            words.extend((0..dice.of(&[0, 0, 0, 1, 1, 2])).map(|_| jobs::word(MORE, dice.of(&[0, 1, PAST - 1]))));
        }
    }
    words
}

fn payload(dice: &mut Dice) -> u32 {
    let number = match dice.below(3) {
        0 => dice.below(9),
        1 => dice.any(),
        _ => dice.of(&[0, u64::from(PAST), 1 << PAYLOAD_BITS]).wrapping_sub(2).wrapping_add(dice.below(4)),
    };
    jobs::payload_of(number as u32)
}

/// Where the words of these kinds stand.
fn places(words: &[u32], kinds: RangeInclusive<u32>) -> Vec<usize> {
    (0..words.len()).filter(|&at| kinds.contains(&jobs::kind_of(words[at]))).collect()
}

/// As many axes as a job may have, one fewer, or more.
fn crowded(dice: &mut Dice) -> Vec<u32> {
    let mut job = drawn(dice, MOST_AXES + 2, unsigned);
    let axes = MOST_AXES + dice.below(4) as usize - 1;
    job.sizes.truncate(axes);
    job.strides.truncate(axes);
    // In the one half the numbers are small, so that the line is short.
    if dice.once_in(2) {
        job.sizes.iter_mut().for_each(|size| *size %= 9);
        job.strides.iter_mut().for_each(|stride| *stride %= 9);
    }
    let mut words = jobs::words(&job);
    // A size behind a size, or a stride behind a stride, is out of order even if it is the seventeenth.
    if dice.once_in(3) {
        let of_axes = places(&words, SIZE..=STRIDE);
        let late = of_axes.len() - 1 - dice.below(6) as usize;
        words.remove(of_axes[late]);
    }
    words
}

/// A place in the words, and now and then the first or the last.
fn place(dice: &mut Dice, words: &[u32]) -> usize {
    let last = words.len().saturating_sub(1);
    let any = dice.below(last as u64 + 1) as usize;
    dice.of(&[any, any, any, any, 0, last])
}

/// Needless high words: to some numbers, or to each, up to the two that a number may have; seldom one too many.
fn pad(dice: &mut Dice, words: &mut Vec<u32>) {
    let some = dice.of(&[1, 2, 8]);
    let limit = if dice.once_in(6) { 3 } else { 2 };
    let mut padded = Vec::new();
    let mut more = 0;
    for (at, &word) in words.iter().enumerate() {
        padded.push(word);
        more = if jobs::kind_of(word) == MORE { more + 1 } else { 0 };
        let whole = words.get(at + 1).is_some_and(|&next| jobs::kind_of(next) != MORE);
        if whole && dice.once_in(some) {
            let room = limit - more.min(limit);
            padded.extend((0..dice.below(room + 1)).map(|_| jobs::word(MORE, 0)));
        }
    }
    *words = padded;
}

/// Another kind, another payload, one bit, or another word altogether.
fn replace(dice: &mut Dice, words: &mut Vec<u32>) {
    let at = place(dice, words);
    let Some(word) = words.get_mut(at) else { return };
    *word = match dice.below(5) {
        0 | 1 => jobs::word(dice.below(8) as u32, jobs::payload_of(*word)),
        2 => jobs::word(jobs::kind_of(*word), payload(dice)),
        3 => *word ^ 1 << dice.below(32),
        _ => jobs::word(dice.below(8) as u32, payload(dice)),
    };
}

/// One word, or a few that stand side by side.
fn drop_some(dice: &mut Dice, words: &mut Vec<u32>) {
    let first = place(dice, words);
    let past = words.len().min(first + dice.of(&[1, 1, 1, 2, 3]));
    words.drain(first..past);
}

/// A word, or a few that stand side by side, twice: a size with its stride is one more axis.
fn repeat(dice: &mut Dice, words: &mut Vec<u32>) {
    let first = place(dice, words);
    let past = words.len().min(first + dice.of(&[1, 1, 2, 2, 4, 8]));
    let again: Vec<u32> = words[first..past].to_vec();
    words.splice(past..past, again);
}

fn swap(dice: &mut Dice, words: &mut Vec<u32>) {
    if words.len() > 1 {
        let first = place(dice, words).min(words.len() - 2);
        let other = place(dice, words);
        words.swap(first, dice.of(&[first + 1, first + 1, other]));
    }
}

/// One word of kind 0 or up to three, behind any word and in front of the first.
fn insert_more(dice: &mut Dice, words: &mut Vec<u32>) {
    let at = dice.below(words.len() as u64 + 1) as usize;
    let count = dice.of(&[1, 1, 2, 3]);
    let any = payload(dice);
    let payload = dice.of(&[0, 1, PAST - 1, PAST, any]);
    words.splice(at..at, (0..count).map(|_| jobs::word(MORE, payload)));
}

/// A number gets a third word by which it has 64 bits, or just more; those below it are often all zeros or all ones.
fn past_64_bits(dice: &mut Dice, words: &mut Vec<u32>) {
    let numbers = places(words, SIZE..=END);
    if numbers.is_empty() {
        return;
    }
    let first = dice.of(&numbers);
    let mut past = first + 1;
    while past < words.len() && jobs::kind_of(words[past]) == MORE {
        past += 1;
    }
    let (own, any, ones) = (jobs::payload_of(words[first]), payload(dice), (1 << PAYLOAD_BITS) - 1);
    let (low, second) = dice.of(&[(0, 0), (ones, ones), (own, any)]);
    let (kind, third) = (jobs::kind_of(words[first]), PAST - 2 + dice.below(4) as u32);
    words.splice(first..past, [jobs::word(kind, low), jobs::word(MORE, second), jobs::word(MORE, third)]);
}
