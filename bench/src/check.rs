//! Every case of both tables, of growth, and of short calls with several axes: those that take longer than the Rust.
//! And every case of the calls that hand out a number, of the search, of reductions by steps, of lists of ranges, of
//! windows, and of jobs of sixteen axes: those that take longer than aimed at.
//!
//! A busy machine makes a case look slow now and then, so one that does is timed again, and its best ratio counts.

use crate::job::Job;
use crate::rates::Rates;
use crate::table::Row;
use crate::{beside, figures, growth, moving, rare, search, sent, stepping, table, timing, workers};
use std::time::Duration;

const LEAST: Duration = Duration::from_millis(100);

/// How often a case is timed at most.
const TRIES: usize = 4;

/// Calls of so many values, of each of the layouts with several axes.
const SHORT: [u64; 20] = [1, 2, 3, 5, 7, 8, 9, 16, 17, 31, 32, 33, 63, 64, 65, 100, 128, 129, 200, 256];

/// What was timed, and what of it took longer than the Rust; then the ratios of the other calls, and those past their
/// aim.
#[derive(Default)]
struct Seen {
    cases: usize,
    slower: usize,
    ratios: usize,
    missed: usize,
    same: bool,
}

/// Whether no case takes longer than the Rust, nor one of the other calls than aimed at, and all answers were the same.
pub fn print() -> bool {
    let mut seen = Seen { same: true, ..Seen::default() };
    for (name, lists) in [("the first table", &table::LISTS[..]), ("the second table", &rare::LISTS[..])] {
        eprintln!("{name} ..");
        for row in lists.iter().flat_map(|make| make()) {
            seen.time(&format!("{}, {}", row.name, row.rates), &row.job);
        }
    }
    eprintln!("growth ..");
    for (name, make) in growth::KINDS {
        growth::counts().into_iter().for_each(|count| seen.time(&format!("{name}, {count} values"), &make(count)));
    }
    eprintln!("short calls with several axes ..");
    for (name, axes) in layouts() {
        SHORT.into_iter().for_each(|count| seen.time(&format!("{name}, {count} values"), &short(&axes, count)));
    }
    eprintln!("figures, the first bad rate, reductions by steps, lists of ranges, and windows ..");
    let tables = figures::TABLES.iter().chain(&search::TABLES).chain(&stepping::TABLES).chain(&workers::TABLES);
    for table in tables.chain(&moving::TABLES) {
        (table.rows)().iter().for_each(|row| seen.beside(table, row));
    }
    eprintln!("jobs of sixteen axes ..");
    for case in sent::aimed_at() {
        seen.aims(&case.name, case.difference(), &sent::AIMS, || case.ratios(LEAST));
    }
    println!("{} of {} cases take longer than the Rust", seen.slower, seen.cases);
    let kinds = "figures, of searches, of steps, of ranges, of windows and of jobs";
    println!("{} of {} ratios of {kinds} are past their aim", seen.missed, seen.ratios);
    seen.same && seen.slower == 0 && seen.missed == 0
}

/// The best of each ratio, out of so many tries that none is past its aim, or out of all.
fn best(aims: &[f64], ratios: impl Fn() -> Vec<f64>) -> Vec<f64> {
    let mut best = vec![f64::INFINITY; aims.len()];
    for _ in 0..TRIES {
        best.iter_mut().zip(ratios()).for_each(|(best, ratio)| *best = best.min(ratio));
        if best.iter().zip(aims).all(|(ratio, aim)| ratio <= aim) {
            break;
        }
    }
    best
}

impl Seen {
    fn time(&mut self, name: &str, job: &Job) {
        self.cases += 1;
        if let Some((base, expected, found)) = job.difference() {
            println!("{name}, from {base}: the oracle gives {expected:x?}, the engine {found:x?}");
            self.same = false;
            return;
        }
        let ratios = best(&[1.0], || {
            let times = timing::measure(job, LEAST);
            vec![times.engine / times.rust]
        });
        if ratios[0] > 1.0 {
            self.slower += 1;
            println!("{name}: {:.3} of the Rust's time", ratios[0]);
        }
    }

    fn beside(&mut self, table: &beside::Table, row: &Row) {
        let name = format!("{}, {}, {}", table.name, row.name, row.rates);
        self.aims(&name, (table.difference)(&row.job), table.ratios, || table.measure(&row.job, LEAST).1);
    }

    /// Ratios with an aim each, if the answers are the same.
    fn aims(&mut self, name: &str, difference: Option<String>, aims: &[(&str, f64)], ratios: impl Fn() -> Vec<f64>) {
        self.ratios += aims.len();
        if let Some(difference) = difference {
            println!("{name}: {difference}");
            self.same = false;
            return;
        }
        let limits: Vec<f64> = aims.iter().map(|aim| aim.1).collect();
        for (ratio, &(head, aim)) in best(&limits, ratios).into_iter().zip(aims) {
            if ratio > aim {
                self.missed += 1;
                println!("{name}: {head} is {ratio:.3}, and the aim {aim}");
            }
        }
    }
}

/// Layouts of 256 elements, whose axes fuse or do not, are turned or in order, and of which some have size 1.
fn layouts() -> Vec<(&'static str, Vec<(u64, i64)>)> {
    let powers = |base: i64| (0..8).rev().map(|axis| (2, base.pow(axis))).collect();
    vec![
        ("2 axes", vec![(16, 24), (16, 1)]),
        ("2 axes that fuse", vec![(16, 16), (16, 1)]),
        ("2 axes, two long runs", vec![(2, 200), (128, 1)]),
        ("2 axes, runs of 2", vec![(128, 10), (2, 1)]),
        ("2 axes, turned", vec![(16, 1), (16, 24)]),
        ("2 axes at stride 2", vec![(16, 48), (16, 2)]),
        ("2 axes backwards", vec![(16, -24), (16, -1)]),
        ("4 axes", vec![(4, 200), (4, 44), (4, 10), (4, 1)]),
        ("4 axes at stride 2", vec![(4, 200), (4, 48), (4, 11), (4, 2)]),
        ("4 axes that fuse", vec![(4, 64), (4, 16), (4, 4), (4, 1)]),
        ("4 axes, runs of 32", vec![(2, 300), (2, 150), (2, 70), (32, 1)]),
        ("4 axes, runs of 2", vec![(32, 40), (2, 18), (2, 5), (2, 1)]),
        ("8 axes", powers(3)),
        ("8 axes that fuse", powers(2)),
        ("8 axes, six of size 1", vec![(1, 5), (16, 24), (1, 7), (1, 9), (16, 1), (1, 3), (1, 2), (1, 1)]),
    ]
}

/// The first values of a layout, from 64 bases by turns.
fn short(axes: &[(u64, i64)], count: u64) -> Job {
    let span = |axis: &(u64, i64)| (axis.0 as i64 - 1) * axis.1;
    let low: i64 = axes.iter().map(|axis| span(axis).min(0)).sum();
    let high: i64 = axes.iter().map(|axis| span(axis).max(0)).sum();
    let bases = (0..64).map(|turn| turn - low).collect();
    Job::new(axes, count, bases, Rates::Keep.draw((high - low + 64) as usize))
}
