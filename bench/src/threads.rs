//! A host with threads: the product of a whole seat plan, with a range of the plan for each thread.
//!
//! The host cuts the plan's elements into as many consecutive ranges as it has threads (`cut`). Each thread calls the
//! engine with its own range and its own place of the shared buffers, and when all of them are done, the host joins the
//! accumulators in the order of the ranges and finishes what they give (`by_threads`). The engine's calls share nothing
//! but what they read, so they need no lock.
//!
//! `bench threads` times it; the rest of this file is that table. The answer by each number of threads must be what the
//! oracle's reductions of the same ranges give, joined in the same order and finished.

use crate::beside::grouped;
use crate::job;
use crate::probe::{self, Bits, Place, Places};
use crate::ranges::Ranges;
use crate::rates::Rates;
use crate::rules;
use crate::stepping::house;
use crate::timing;
use std::thread;
use std::time::Duration;

const LEAST: Duration = Duration::from_secs(1);

/// Sides, levels, and rows of 64 seats: a plan of four million seats, and one of some forty thousand.
const LARGE: [u64; 3] = [100, 5, 125];
const SMALL: [u64; 3] = [3, 5, 41];

/// By up to so many threads the small plan is asked.
const FEW: usize = 4;

/// A seat plan with a keep rate for each seat. Its rows have a gap between them, so they are pieces of their own.
struct Plan {
    sizes: Vec<u64>,
    strides: Vec<i64>,
    base: i64,
    values: Vec<f64>,
}

/// The accumulator of the whole plan, and the bits of its finished number.
type Product = (Place, u64);

// ---- the host

/// So many ranges, each of which starts where the one before it ends. No two differ by more than one element.
pub fn cut(total: u64, count: usize) -> Ranges {
    let border = |number: usize| (u128::from(total) * number as u128 / count as u128) as u64;
    Ranges { starts: (0..count).map(border).collect(), ends: (1..=count).map(border).collect() }
}

/// The product of the plan by so many threads, of which there are no more than elements; or the number of a refusal.
fn by_threads(plan: &Plan, threads: usize) -> Result<Product, u32> {
    let ranges = cut(plan.total(), threads);
    let (mut ms, mut es, mut bads) = (vec![0.0; threads], vec![0; threads], vec![0; threads]);
    let places = Places { ms: &mut ms, es: &mut es, bads: &mut bads };

    // Each thread has a list of one range, one place of each buffer, and one for the code. All are done when the scope
    // ends.
    let mut codes = vec![0; threads];
    thread::scope(|scope| {
        for (at, (mut place, code)) in places.chunks(1).zip(&mut codes).enumerate() {
            let own = plan.ranges(&ranges.starts[at..=at], &ranges.ends[at..=at]);
            scope.spawn(move || *code = probe::ranges_into(&own, &plan.values, &mut place));
        }
    });
    if let Some(&code) = codes.iter().find(|&&code| code != 0) {
        return Err(code);
    }

    // What comes first in the plan stands on the left, whichever thread was done first.
    let acc = |at: usize| Place { m: ms[at], e: es[at], bad: bads[at] };
    let whole = (1..threads).try_fold(acc(0), |left, at| probe::join(left, acc(at)))?;
    Ok((whole, probe::finish(whole)?))
}

// ---- the plan

impl Plan {
    fn new(counts: [u64; 3]) -> Plan {
        let (axes, length) = house(counts);
        let (sizes, strides) = axes.into_iter().unzip();
        // So near to 1 that the product is a normal number.
        Plan { sizes, strides, base: 0, values: Rates::Near.draw(length) }
    }

    fn total(&self) -> u64 {
        self.sizes.iter().product()
    }

    fn ranges<'a>(&'a self, starts: &'a [u64], ends: &'a [u64]) -> probe::Ranges<'a> {
        probe::Ranges { sizes: &self.sizes, strides: &self.strides, base: self.base, starts, ends }
    }

    /// The product of the plan in one call, without a thread.
    fn unbroken(&self) -> Result<Product, u32> {
        let range = probe::Range {
            sizes: &self.sizes,
            strides: &self.strides,
            base: self.base,
            start: 0,
            end: self.total(),
        };
        let mut whole = Place { m: 0.0, e: 0, bad: 0 };
        match probe::reduce_into(&range, &self.values, &mut whole) {
            0 => Ok((whole, probe::finish(whole)?)),
            code => Err(code),
        }
    }

    /// The oracle's reductions of so many ranges, joined and finished: the bits of the accumulator and of the number.
    fn expected(&self, count: usize) -> Result<(Bits, u64), u32> {
        let Ranges { starts, ends } = cut(self.total(), count);
        let part = |at: usize| {
            let length = self.values.len() as u64;
            let range = rules::Range { base: self.base, start: starts[at], end: ends[at], length };
            rules::reduce(&self.sizes, &self.strides, &range, &self.values)
        };
        let whole = (1..count).try_fold(part(0)?, |left, at| rules::join(left, part(at)?))?;
        Ok((job::bits(whole), rules::finish(Ok(whole))?.to_bits()))
    }

    /// What the host gives otherwise than the oracle: by so many threads, or by none in one call.
    fn difference(&self, threads: usize) -> Option<String> {
        let expected = self.expected(threads.max(1));
        let found = self.product(threads).map(|(whole, number)| (whole.bits(), number));
        (found != expected).then(|| {
            let count = grouped(self.total());
            format!("{count} values by {threads} threads: the oracle gives {expected:x?}, the host {found:x?}")
        })
    }

    fn product(&self, threads: usize) -> Result<Product, u32> {
        match threads {
            0 => self.unbroken(),
            _ => by_threads(self, threads),
        }
    }
}

// ---- the table, and what is compared without a clock

/// What differs from the Rust on a small plan, by any of a few threads; or what was asked.
pub fn ask() -> Result<String, String> {
    let plan = Plan::new(SMALL);
    match (0..=FEW).find_map(|threads| plan.difference(threads)) {
        Some(difference) => Err(difference),
        None => Ok(format!("the product of {} values by 1 to {FEW} threads", grouped(plan.total()))),
    }
}

/// Whether all answers were the same.
pub fn print() -> bool {
    let plan = Plan::new(LARGE);
    let most = thread::available_parallelism().map_or(1, usize::from);
    let numbers: Vec<usize> = (0..=most).collect();
    if let Some(difference) = numbers.iter().find_map(|&threads| plan.difference(threads)) {
        println!("{difference}");
        return false;
    }
    let times = timing::by_numbers(&numbers, LEAST, |threads| plan.product(threads).map(|product| product.1));
    println!("| {} values | milliseconds | beside one thread | m | finished number |", grouped(plan.total()));
    println!("|---|---:|---:|---|---|");
    for (threads, time) in numbers.into_iter().zip(&times) {
        let (whole, number) = plan.product(threads).expect("a timed call is accepted");
        let name = match threads {
            0 => String::from("unbroken, no thread of its own"),
            1 => String::from("1 thread"),
            _ => format!("{threads} threads"),
        };
        let (m, ratio) = (whole.m.to_bits(), time / times[1]);
        println!("| {name} | {:.3} | {ratio:.3} | {m:016x} | {number:016x} |", time / 1e6);
    }
    println!(
        "\nThe bits may differ from row to row: ranges that are reduced by themselves and then joined are multiplied in \
         another order than the unbroken range, and rounded otherwise. Each row has those of the Rust for the same ranges."
    );
    true
}
