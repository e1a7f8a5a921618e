//! Jobs sent as words: nanoseconds a call for reading one and for writing one, beside the plain Rust of `plain.rs`.
//!
//! A row is of jobs with as many axes each, and as many words to a number; the calls take turns with them.

use crate::generate::jobs::drawn;
use crate::generate::Dice;
use crate::jobs::{self, Job};
use crate::plain;
use crate::probe::{self, JobPlace};
use crate::sent_answers::{range_of, same_read, same_written, BEFORE};
use crate::timing;
use std::hint::black_box;
use std::time::Duration;

const LEAST: Duration = Duration::from_millis(300);

/// The calls take turns with so many jobs.
const TURNS: usize = 64;

/// No job takes as many bytes.
const ROOM: usize = 512;

const MICROSECOND: f64 = 1000.0;

/// Jobs of so many axes have aims.
const AIMED_AT: usize = 16;

/// The engine's time beside the Rust's, and beside a microsecond, which it must stay below.
pub const AIMS: [(&str, f64); 4] = [
    ("reading, engine / Rust", 1.0),
    ("writing, engine / Rust", 1.0),
    ("reading, engine / microsecond", 1.0 - f64::EPSILON),
    ("writing, engine / microsecond", 1.0 - f64::EPSILON),
];

pub struct Case {
    pub name: String,
    axes: usize,
    jobs: Vec<Job>,
    bytes: Vec<Vec<u8>>,
}

/// Nanoseconds a call, the Rust's and the engine's.
struct Times {
    read: [f64; 2],
    write: [f64; 2],
}

impl Case {
    fn new(axes: usize, numbers: &str, draw: fn(&mut Dice, usize) -> Job) -> Case {
        let mut dice = Dice::new(TURNS as u64);
        let jobs: Vec<Job> = (0..TURNS).map(|_| draw(&mut dice, axes)).collect();
        let bytes = jobs.iter().map(|job| jobs::bytes_of(&jobs::words(job))).collect();
        Case { name: format!("{axes} axes, {numbers}"), axes, jobs, bytes }
    }

    #[inline(never)]
    fn rust_read(&self, turn: usize) -> Result<JobPlace, u32> {
        plain::read(black_box(&self.bytes[turn]))
    }

    #[inline(never)]
    fn read(&self, turn: usize, place: &mut JobPlace) -> u32 {
        probe::read_into(black_box(&self.bytes[turn]), place)
    }

    #[inline(never)]
    fn rust_write(&self, turn: usize, out: &mut [u8]) -> Result<usize, u32> {
        plain::write(&range_of(black_box(&self.jobs[turn])), out)
    }

    #[inline(never)]
    fn write(&self, turn: usize, out: &mut [u8], count: &mut usize) -> u32 {
        probe::write_into(&range_of(black_box(&self.jobs[turn])), out, count)
    }

    fn measure(&self, least: Duration) -> Times {
        let mut place = BEFORE;
        let read = timing::two_by_turns(
            TURNS,
            least,
            |turn| {
                black_box(&self.rust_read(turn));
            },
            |turn| (self.read(turn, black_box(&mut place)), black_box(&place).count),
        );
        let (mut first, mut second, mut count) = ([0; ROOM], [0; ROOM], 0);
        let write = timing::two_by_turns(
            TURNS,
            least,
            |turn| self.rust_write(turn, black_box(&mut first)),
            |turn| self.write(turn, black_box(&mut second), black_box(&mut count)),
        );
        Times { read, write }
    }

    /// In the order of the aims.
    pub fn ratios(&self, least: Duration) -> Vec<f64> {
        let Times { read, write } = self.measure(least);
        vec![read[1] / read[0], write[1] / write[0], read[1] / MICROSECOND, write[1] / MICROSECOND]
    }

    /// The first job that is read or written otherwise by one of the three.
    pub fn difference(&self) -> Option<String> {
        self.jobs.iter().zip(&self.bytes).find_map(|(job, bytes)| {
            same_read(bytes).err().or_else(|| same_written(job, vec![0; ROOM]).err())
        })
    }

    /// The mean length of the jobs, in bytes.
    fn length(&self) -> usize {
        self.bytes.iter().map(Vec::len).sum::<usize>() / TURNS
    }

    fn print(&self) -> bool {
        if let Some(difference) = self.difference() {
            println!("{}: {difference}", self.name);
            return false;
        }
        let Times { read, write } = self.measure(LEAST);
        let part = |[rust, engine]: [f64; 2]| format!("{rust:.1} | {engine:.1} | {:.3}", engine / rust);
        println!("| {} | {} | {} | {} |", self.name, self.length(), part(read), part(write));
        true
    }
}

/// Axes of two to nine each, side by side as in a seat plan, of which some are turned, and a range of its elements:
/// numbers of one word and of two.
fn seat_plan(dice: &mut Dice, axes: usize) -> Job {
    let sizes: Vec<u64> = (0..axes).map(|_| 2 + dice.below(8)).collect();
    let mut job = Job { sizes, strides: vec![0; axes], ..Job::default() };
    let mut total = 1;
    for axis in (0..axes).rev() {
        job.strides[axis] = total as i64;
        if dice.below(4) == 0 {
            job.base += ((job.sizes[axis] - 1) * total) as i64;
            job.strides[axis] = -job.strides[axis];
        }
        total *= job.sizes[axis];
    }
    job.start = dice.below(total);
    job.end = job.start + 1 + dice.below(total - job.start);
    job
}

fn one_word(dice: &mut Dice, axes: usize) -> Job {
    drawn(dice, axes, |dice| dice.next() >> (u64::BITS - jobs::PAYLOAD_BITS))
}

fn three_words(dice: &mut Dice, axes: usize) -> Job {
    drawn(dice, axes, |dice| dice.next() | 1 << 63)
}

fn cases() -> Vec<Case> {
    let mut out = Vec::new();
    for axes in [0, 4, AIMED_AT] {
        out.push(Case::new(axes, "numbers of one word", one_word));
        out.push(Case::new(axes, "numbers of three words", three_words));
    }
    out.push(Case::new(AIMED_AT, "a seat plan", seat_plan));
    out
}

/// The cases with aims.
pub fn aimed_at() -> Vec<Case> {
    cases().into_iter().filter(|case| case.axes == AIMED_AT).collect()
}

/// Whether all answers were the same.
pub fn print() -> bool {
    println!("| job | bytes | Rust, read | engine, read | engine / Rust | Rust, write | engine, write | engine / Rust |");
    println!("|---|---:|---:|---:|---:|---:|---:|---:|");
    cases().iter().all(Case::print)
}
