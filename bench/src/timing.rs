//! Best times. Each program is called in short batches by turns, so that a busy moment of the machine hits all of
//! them alike, and the fastest batch of each counts.

use crate::job::Job;
use std::hint::black_box;
use std::time::{Duration, Instant};

/// A batch lasts at least this long, so that reading the clock costs nothing beside it.
const BATCH: Duration = Duration::from_micros(100);

/// Nanoseconds a call.
pub struct Times {
    pub rust: f64,
    pub rust_ahead: f64,
    pub engine: f64,
}

/// The best time of one program so far.
struct Best {
    calls: usize,
    spent: Duration,
    batch: Duration,
}

/// Makes so many calls of a program, and says how long they took.
type Calls<'a> = &'a mut dyn FnMut(usize) -> Duration;

impl Best {
    /// So many calls a batch that it lasts long enough and takes each turn equally often.
    fn new(turns: usize, run: Calls) -> Best {
        let mut calls = turns;
        loop {
            let spent = run(calls);
            if spent >= BATCH {
                return Best { calls, spent, batch: spent };
            }
            calls *= 2;
        }
    }

    fn again(&mut self, run: Calls) {
        let spent = run(self.calls);
        self.spent += spent;
        self.batch = self.batch.min(spent);
    }

    fn nanoseconds(&self) -> f64 {
        self.batch.as_nanos() as f64 / self.calls as f64
    }
}

fn batch<T>(turns: usize, calls: usize, call: &mut impl FnMut(usize) -> T) -> Duration {
    let mut turn = 0;
    let began = Instant::now();
    for _ in 0..calls {
        black_box(call(turn));
        turn += 1;
        if turn == turns {
            turn = 0;
        }
    }
    began.elapsed()
}

fn best_of<const N: usize>(turns: usize, least: Duration, mut programs: [Calls; N]) -> [f64; N] {
    let mut best = programs.each_mut().map(|run| Best::new(turns, *run));
    while best.iter().any(|one| one.spent < least) {
        best.iter_mut().zip(&mut programs).for_each(|(one, run)| one.again(*run));
    }
    best.map(|one| one.nanoseconds())
}

/// Nanoseconds a call of each of three programs, out of at least `least` for each. A program is handed the turn whose
/// base it takes.
pub fn by_turns<A, B, C>(
    turns: usize,
    least: Duration,
    mut first: impl FnMut(usize) -> A,
    mut second: impl FnMut(usize) -> B,
    mut third: impl FnMut(usize) -> C,
) -> [f64; 3] {
    let programs: [Calls; 3] = [
        &mut |calls| batch(turns, calls, &mut first),
        &mut |calls| batch(turns, calls, &mut second),
        &mut |calls| batch(turns, calls, &mut third),
    ];
    best_of(turns, least, programs)
}

/// The same of two programs.
pub fn two_by_turns<A, B>(
    turns: usize,
    least: Duration,
    mut first: impl FnMut(usize) -> A,
    mut second: impl FnMut(usize) -> B,
) -> [f64; 2] {
    let programs: [Calls; 2] =
        [&mut |calls| batch(turns, calls, &mut first), &mut |calls| batch(turns, calls, &mut second)];
    best_of(turns, least, programs)
}

/// Nanoseconds a call of one program for each of the numbers that it is handed, out of at least `least` for each.
pub fn by_numbers<T>(numbers: &[usize], least: Duration, mut call: impl FnMut(usize) -> T) -> Vec<f64> {
    let mut run = |number, calls| batch(1, calls, &mut |_| call(number));
    let mut best: Vec<Best> = numbers.iter().map(|&number| Best::new(1, &mut |calls| run(number, calls))).collect();
    while best.iter().any(|one| one.spent < least) {
        best.iter_mut().zip(numbers).for_each(|(one, &number)| one.again(&mut |calls| run(number, calls)));
    }
    best.iter().map(Best::nanoseconds).collect()
}

/// The reduction. At least `least` for each program.
pub fn measure(job: &Job, least: Duration) -> Times {
    let plan = job.plan();
    let [rust, rust_ahead, engine] = by_turns(
        job.turns(),
        least,
        |turn| job.rust(turn),
        |turn| job.rust_ahead(&plan, turn),
        |turn| job.engine(turn),
    );
    Times { rust, rust_ahead, engine }
}

/// Nanoseconds a value for reading alone: eight sums over the bits of all values, in order.
pub fn reading(values: &[f64], least: Duration) -> f64 {
    let mut best = f64::INFINITY;
    let mut spent = Duration::ZERO;
    while spent < least {
        let began = Instant::now();
        black_box(sums(black_box(values)));
        let once = began.elapsed();
        spent += once;
        best = best.min(once.as_nanos() as f64 / values.len() as f64);
    }
    best
}

#[inline(never)]
fn sums(values: &[f64]) -> [u64; 8] {
    let mut sums = [0u64; 8];
    for chunk in values.chunks_exact(8) {
        for (sum, value) in sums.iter_mut().zip(chunk) {
            *sum ^= value.to_bits();
        }
    }
    sums
}
