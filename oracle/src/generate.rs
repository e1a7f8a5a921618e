//! Ours: random case lines, the same for the same seed.
//!
//! A kind names what is drawn: `layout` gives lines of `compile` and `list`, `join` of `join`, `reduce` of `reduce`
//! and `product`, `ordered` of `ordered` and `figure`, `first` of `first`, `finish` of `finish`, `jobs` of `write` and
//! `read`, `step` of `step`, `ranges` of `ranges`, `windows` of `windows`.

mod accumulator;
mod axes;
mod finish;
pub mod first;
pub mod jobs;
mod join;
mod layout;
pub mod ordered;
pub mod ranges;
mod rates;
pub mod reduce;
pub mod step;
pub mod windows;

use std::fmt::Display;
use std::io::{Result, Write};

/// Draws one line, or several that belong together, with a newline between them.
pub type Maker = fn(&mut Dice) -> String;

pub fn maker(kind: &str) -> Option<Maker> {
    match kind {
        "layout" => Some(layout::line),
        "join" => Some(join::line),
        "reduce" => Some(reduce::line),
        "ordered" => Some(ordered::line),
        "first" => Some(first::line),
        "finish" => Some(finish::line),
        "jobs" => Some(jobs::line),
        "step" => Some(step::lines),
        "ranges" => Some(ranges::line),
        "windows" => Some(windows::line),
        _ => None,
    }
}

pub fn print(make: Maker, seed: u64, count: u64) -> Result<()> {
    let mut output = std::io::BufWriter::new(std::io::stdout().lock());
    let mut dice = Dice::new(seed);
    let mut left = count;
    while left > 0 {
        for line in make(&mut dice).split('\n').take(left as usize) {
            output.write_all(line.as_bytes())?;
            output.write_all(b"\n")?;
            left -= 1;
        }
    }
    output.flush()
}

/// A list as it stands in a line: its count and its items, with a space before each word.
pub fn items_text<T: Display>(items: &[T]) -> String {
    let mut text = format!(" {}", items.len());
    for item in items {
        text += &format!(" {item}");
    }
    text
}

/// The floats that are given by their bits.
pub fn floats(bits: &[u64]) -> Vec<f64> {
    bits.iter().map(|&bits| f64::from_bits(bits)).collect()
}

/// A list of floats, which are given by their bits.
pub fn floats_text(bits: &[u64]) -> String {
    let words: Vec<String> = bits.iter().map(|bits| format!("{bits:016x}")).collect();
    items_text(&words)
}

/// A counter whose value is mixed at each draw (splitmix64).
pub struct Dice {
    state: u64,
}

impl Dice {
    pub fn new(seed: u64) -> Dice {
        Dice { state: seed }
    }

    pub fn next(&mut self) -> u64 {
        self.state = self.state.wrapping_add(0x9e37_79b9_7f4a_7c15);
        let mut mixed = self.state;
        mixed = (mixed ^ (mixed >> 30)).wrapping_mul(0xbf58_476d_1ce4_e5b9);
        mixed = (mixed ^ (mixed >> 27)).wrapping_mul(0x94d0_49bb_1331_11eb);
        mixed ^ (mixed >> 31)
    }

    /// Below `count`, which is not 0.
    pub fn below(&mut self, count: u64) -> u64 {
        self.next() % count
    }

    /// True once in `count` times.
    fn once_in(&mut self, count: u64) -> bool {
        self.below(count) == 0
    }

    pub fn of<T: Copy>(&mut self, choices: &[T]) -> T {
        choices[self.below(choices.len() as u64) as usize]
    }

    fn shuffle<T>(&mut self, items: &mut [T]) {
        for last in (1..items.len()).rev() {
            let other = self.below(last as u64 + 1) as usize;
            items.swap(last, other);
        }
    }

    /// A number whose size in bits is drawn first, so that small and huge ones are alike frequent.
    fn any(&mut self) -> u64 {
        let bits = self.below(65) as u32;
        let number = self.next();
        if bits == 0 {
            0
        } else {
            number >> (64 - bits)
        }
    }

    /// A power of two, or a number a little beside one.
    fn near_power(&mut self) -> u64 {
        let power = 1u64 << self.below(64);
        let step = self.below(3);
        match self.below(3) {
            0 => power,
            1 => power.wrapping_sub(step),
            _ => power.wrapping_add(step),
        }
    }
}
