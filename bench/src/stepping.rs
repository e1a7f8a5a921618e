//! The reduction a few pieces at a time: a whole range by calls of 1, 16 and 256 pieces, beside the Rust by as many calls,
//! each of which compiles the layout and joins its pieces, and beside the unbroken reduction. And how long a single call of
//! such a loop takes at most.

use crate::beside::{self, grouped, Table, Unit, NO_AIM};
use crate::job::{self, Job};
use crate::probe::StepPlace;
use crate::rates::Rates;
use crate::table::{row, Row, GAP};
use crate::timing;
use std::time::{Duration, Instant};

/// For the best time of each call of a loop, loops are run for so long.
const LEAST: Duration = Duration::from_secs(1);

/// The values of a piece.
const LENGTH: u64 = 64;

pub const TABLES: [Table; 3] = [
    table::<1>("1 piece a call", &[("engine / Rust", 1.0), ("by steps / unbroken", NO_AIM)]),
    table::<16>("16 pieces a call", &[("engine / Rust", 1.0), ("by steps / unbroken", NO_AIM)]),
    table::<256>("256 pieces a call", &[("engine / Rust", 1.0), ("by steps / unbroken", 1.25)]),
];

const fn table<const N: u64>(name: &'static str, ratios: &'static [(&'static str, f64)]) -> Table {
    Table {
        name,
        unit: Unit::Value,
        programs: ["Rust, by steps", "engine, unbroken", "engine, by steps"],
        ratios,
        rows,
        times: times::<N>,
        difference: difference::<N>,
    }
}

fn times<const N: u64>(job: &Job, least: Duration) -> [f64; 3] {
    timing::by_turns(
        job.turns(),
        least,
        |turn| job.rust_by_steps(turn, N),
        |turn| job.engine(turn),
        |turn| job.by_steps(turn, N),
    )
}

fn difference<const N: u64>(job: &Job) -> Option<String> {
    (0..job.turns()).find_map(|turn| {
        let [unbroken, rust] = [job.rust(turn), job.rust_by_steps(turn, N)].map(|answer| job::bits(answer.read()));
        if rust != unbroken {
            return Some(format!("the Rust gives {unbroken:x?}, and by {N} pieces a call {rust:x?}"));
        }
        let (expected, found) = (job.expected(turn), job.by_steps(turn, N));
        (found != Ok(expected))
            .then(|| format!("the oracle gives {expected:x?}, the engine by {N} pieces a call {found:x?}"))
    })
}

/// Rows of 64 with a gap behind each, so many values in all.
pub fn rows_of(name: &str, rates: Rates, count: u64, stride: u64) -> Row {
    let (rows, pitch) = (count / LENGTH, LENGTH * stride + GAP);
    let values = rates.draw((rows * pitch) as usize);
    row(name, rates, &[(rows, pitch as i64), (LENGTH, stride as i64)], &[0], values)
}

/// The axes of so many sides, levels and rows of 64, no two of which fuse, and how many values they take.
pub fn house([sides, levels, rows]: [u64; 3]) -> ([(u64, i64); 4], usize) {
    let pitch = LENGTH + GAP;
    let level = rows * pitch + GAP;
    let side = levels * level + GAP;
    ([(sides, side as i64), (levels, level as i64), (rows, pitch as i64), (LENGTH, 1)], (sides * side) as usize)
}

/// Rows of 64 over three axes.
pub fn rows_in_house(name: &str, rates: Rates, counts: [u64; 3]) -> Row {
    let (axes, length) = house(counts);
    row(name, rates, &axes, &[0], rates.draw(length))
}

fn rows() -> Vec<Row> {
    let (keep, spread) = (Rates::Keep, Rates::Spread);
    vec![
        rows_of("rows of 64 with a gap, 1e5 (in cache)", keep, 100_000, 1),
        rows_of("rows of 64 with a gap, 1e6", keep, 1_000_000, 1),
        rows_of("rows of 64 with a gap, 1e6", spread, 1_000_000, 1),
        rows_of("rows of 64 at stride 2 with a gap, 1e6", keep, 1_000_000, 2),
        rows_in_house("rows of 64 over three axes, 1e6", keep, [25, 5, 125]),
    ]
}

/// The best time of each call of a caller's loop, in nanoseconds, the reading of the clock included.
fn calls(job: &Job, n: u64) -> Vec<u64> {
    let mut best = Vec::new();
    let began = Instant::now();
    while began.elapsed() < LEAST {
        let mut place = StepPlace::at(0);
        let mut number = 0;
        while place.done == 0 {
            let before = Instant::now();
            assert_eq!(job.step(0, n, &mut place), 0, "a timed call is accepted");
            let spent = before.elapsed().as_nanos() as u64;
            if number == best.len() {
                best.push(spent);
            }
            best[number] = best[number].min(spent);
            number += 1;
        }
    }
    best
}

/// How long the calls of a loop take, the middle one and the longest, each call by its best time.
fn print_calls() {
    println!("| calls of a loop | rates | pieces a call | calls | middle | longest |");
    println!("|---|---|---:|---:|---:|---:|");
    for row in rows() {
        for n in [1, 16, 256] {
            let mut times = calls(&row.job, n);
            times.sort_unstable();
            let [count, middle, longest] = [times.len() as u64, times[times.len() / 2], times[times.len() - 1]].map(grouped);
            println!("| {} | {} | {n} | {count} | {middle} | {longest} |", row.name, row.rates);
        }
    }
}

/// Whether all answers were the same.
pub fn print() -> bool {
    let same = beside::print(&TABLES);
    if same {
        println!();
        print_calls();
    }
    same
}
