//! The search for the first bad rate beside the reduction of the same range: where there is none, which is read to the
//! end, and where one stands early.

use crate::beside::{Table, Unit, NO_AIM};
use crate::job::Job;
use crate::rates::Rates;
use crate::table::{row, Row, GAP, TURNS};
use crate::timing;
use std::time::Duration;

const PROGRAMS: [&str; 3] = ["Rust, reduce", "engine, reduce", "engine, search"];

pub const TABLES: [Table; 2] = [
    Table {
        name: "no bad rate",
        unit: Unit::Value,
        programs: PROGRAMS,
        ratios: &[("search / Rust's reduce", 1.0), ("search / reduce", 1.0)],
        rows: good,
        times,
        difference: Job::search_difference,
    },
    Table {
        name: "a bad rate",
        unit: Unit::Call,
        programs: PROGRAMS,
        // The reduction looks at a few values of lane 0 beforehand, and may be done at one of them.
        ratios: &[("search / Rust's reduce", 1.0), ("search / reduce", NO_AIM)],
        rows: spoiled,
        times,
        difference: Job::search_difference,
    },
];

fn times(job: &Job, least: Duration) -> [f64; 3] {
    timing::by_turns(job.turns(), least, |turn| job.rust(turn), |turn| job.engine(turn), |turn| job.first(turn))
}

fn line(name: &str, rates: Rates, stride: i64, values: Vec<f64>) -> Row {
    row(name, rates, &[((values.len() as u64).div_ceil(stride.unsigned_abs()), stride)], &[0], values)
}

fn rows_of(length: u64, rates: Rates, count: u64) -> Row {
    let (rows, pitch) = (count / length, length + GAP);
    let values = rates.draw((rows * pitch) as usize);
    row(&format!("rows of {length} with a gap, 1e6"), rates, &[(rows, pitch as i64), (length, 1)], &[0], values)
}

/// A short call, from many bases by turns.
fn call_of(count: i64, which: &str, rates: Rates, spoil: fn(&mut [f64])) -> Row {
    let bases: Vec<i64> = (0..TURNS).map(|turn| turn * count).collect();
    let mut values = rates.draw((TURNS * count) as usize);
    values.chunks_mut(count as usize).for_each(spoil);
    row(&format!("a call of {count} values, {which}"), rates, &[(count as u64, 1)], &bases, values)
}

fn good() -> Vec<Row> {
    let (keep, spread, both) = (Rates::Keep, Rates::Spread, Rates::Signed);
    let scaled = |scale: f64| keep.scaled(100_000, scale);
    let mut out = vec![
        line("contiguous, 1e5", keep, 1, keep.draw(100_000)),
        line("contiguous, 1e7", keep, 1, keep.draw(10_000_000)),
        line("stride 2, 1e5", keep, 2, keep.draw(200_000)),
    ];
    out.extend([2, 4, 8, 16, 64, 100].map(|length| rows_of(length, keep, 1_000_000)));
    out.extend([
        line("contiguous, 1e5", spread, 1, spread.draw(100_000)),
        line("contiguous, 1e5", both, 1, both.draw(100_000)),
        line("stride 2, 1e5", both, 2, both.draw(200_000)),
        rows_of(16, both, 1_000_000),
        line("contiguous, 1e5, all rates a millionth", keep, 1, scaled(1e-6)),
        line("contiguous, 1e5, all rates a million times", keep, 1, scaled(1e6)),
        line("contiguous, 1e5, all rates below 2^-120", keep, 1, scaled(2f64.powi(-130))),
        call_of(8, "contiguous", keep, |_| ()),
        call_of(64, "contiguous", keep, |_| ()),
    ]);
    out
}

/// One zero, at this element.
fn spoiled() -> Vec<Row> {
    let keep = Rates::Keep;
    let spoiled = |name: &str, count: usize, stride: usize, element: usize| {
        let mut values = keep.draw(count * stride);
        values[element * stride] = 0.0;
        line(name, keep, stride as i64, values)
    };
    vec![
        spoiled("contiguous, 1e7, element 0", 10_000_000, 1, 0),
        spoiled("contiguous, 1e7, element 1000", 10_000_000, 1, 1000),
        spoiled("contiguous, 1e7, element 100,000", 10_000_000, 1, 100_000),
        spoiled("stride 2, 1e5, element 1000", 100_000, 2, 1000),
        spoiled("stride 2, 1e5, the last element", 100_000, 2, 99_999),
        call_of(64, "element 32", keep, |values| values[32] = 0.0),
    ]
}
