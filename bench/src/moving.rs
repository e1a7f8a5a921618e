//! Each w values in a row, by one call. Beside it stand a call of the reduction for each window, and the Rust by as many
//! calls, each of which compiles the layout, and then the Rust with a layout that is compiled once.

use crate::beside::{Table, Unit, NO_AIM};
use crate::job::Job;
use crate::places::{self, unwritten};
use crate::probe::Places;
use crate::rates::Rates;
use crate::table::Row;
use crate::timing;
use crate::windows;
use std::hint::black_box;
use std::time::Duration;

const COUNT: usize = 100_000;
const KEEP: Rates = Rates::Keep;

/// Two of these in a lane leave the doubles.
const LOW: f64 = 1e-200;

const AIMS: [(&str, f64); 2] = [("windows / Rust", 0.5), ("windows / a call a window", 0.8)];
/// Where the eights fail, each window is worked by itself.
const SELDOM: [(&str, f64); 2] = [("windows / Rust", NO_AIM), ("windows / a call a window", NO_AIM)];
const NO_AIMS: [(&str, f64); 1] = [("windows / Rust, compiled ahead", NO_AIM)];

pub const TABLES: [Table; 3] = [
    table("windows of w values, over 1e5", "Rust, a call a window", &AIMS, plain, times),
    table("windows that are seldom met, over 1e5", "Rust, a call a window", &SELDOM, seldom_met, times),
    table("windows of w values, over 1e5", "Rust, compiled ahead", &NO_AIMS, plain, times_ahead),
];

const fn table(
    name: &'static str,
    rust: &'static str,
    ratios: &'static [(&'static str, f64)],
    rows: fn() -> Vec<Row>,
    times: fn(&Job, Duration) -> [f64; 3],
) -> Table {
    let programs = [rust, "engine, a call a window", "engine, windows"];
    Table { name, unit: Unit::Turn, programs, ratios, rows, times, difference }
}

/// A turn for each window.
pub fn job(w: usize, values: Vec<f64>) -> Job {
    let bases = (0..=values.len() - w).map(|base| base as i64).collect();
    Job::new(&[(w as u64, 1)], w as u64, bases, values)
}

fn row(w: usize, which: &str, rates: Rates, values: Vec<f64>) -> Row {
    Row { name: format!("w = {w}{which}"), rates: rates.name(), job: job(w, values) }
}

fn plain() -> Vec<Row> {
    [7, 30, 64, 365].into_iter().map(|w| row(w, "", KEEP, KEEP.draw(COUNT))).collect()
}

fn seldom_met() -> Vec<Row> {
    let one_low = || KEEP.with_one_a_block(COUNT, |_| LOW);
    vec![
        row(30, ", one zero in 64", KEEP, KEEP.with_one_a_block(COUNT, |_| 0.0)),
        row(30, ", one rate in 64 is 1e-200", KEEP, one_low()),
        row(30, ", all rates times 1e-200", KEEP, KEEP.scaled(COUNT, LOW)),
        row(30, "", Rates::Signed, Rates::Signed.draw(COUNT)),
        row(365, ", one rate in 64 is 1e-200", KEEP, one_low()),
        row(365, ", all rates times 1e-200", KEEP, KEEP.scaled(COUNT, LOW)),
    ]
}

/// All windows, by three programs.
pub fn times(job: &Job, least: Duration) -> [f64; 3] {
    beside_the_rust(job, least, |turn| {
        black_box(job.rust(turn));
    })
}

fn times_ahead(job: &Job, least: Duration) -> [f64; 3] {
    let plan = job.plan();
    beside_the_rust(job, least, |turn| {
        black_box(job.rust_ahead(&plan, turn));
    })
}

fn beside_the_rust(job: &Job, least: Duration, mut rust: impl FnMut(usize)) -> [f64; 3] {
    let mut out = unwritten(job.turns());
    timing::by_turns(
        1,
        least,
        |_| (0..job.turns()).for_each(&mut rust),
        |_| {
            for turn in 0..job.turns() {
                let _ = black_box(job.engine(turn));
            }
        },
        |_| job.windows(&mut Places::of(black_box(&mut out))),
    )
}

/// The first window of which the engine has another accumulator than the oracle, by itself or in one call.
pub fn difference(job: &Job) -> Option<String> {
    let (mut expected, mut found) = (unwritten(job.turns()), unwritten(job.turns()));
    assert_eq!(windows::reduce_windows(&job.values, job.count(), &mut expected), 0, "a timed call is accepted");
    if job.windows(&mut Places::of(&mut found)) != 0 {
        return Some(String::from("the engine refuses the call"));
    }
    (0..job.turns()).find_map(|at| {
        let (expected, found) = (places::read(&expected, at), places::read(&found, at));
        let alone = job.engine(at);
        (alone != Ok(expected) || found != expected).then(|| {
            format!("window {at}: the oracle gives {expected:x?}, the engine {alone:x?}, and in one call {found:x?}")
        })
    })
}
