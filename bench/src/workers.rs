//! All workers' ranges in one call: 256 ranges of 1,000 values each, one behind the other, by calls of 1, 16 and 256 of
//! them. Beside it stand a call of the reduction for each range, and the Rust by as many calls, each of which compiles
//! the layout.

use crate::beside::{Table, Unit};
use crate::job::Job;
use crate::places::{self, unwritten};
use crate::probe::{Place, Places};
use crate::ranges::{Buffers, Ranges};
use crate::rates::Rates;
use crate::stepping::{rows_in_house, rows_of};
use crate::table::{row, Row};
use crate::threads::cut;
use crate::timing;
use std::hint::black_box;
use std::time::Duration;

/// All of them are gone through for each time, so that the processor does not learn the values by heart.
const RANGES: usize = 256;

/// The values of a range.
const LENGTH: u64 = 1000;

pub const TABLES: [Table; 3] = [
    table::<1>("1 range of 1,000 values"),
    table::<16>("16 ranges of 1,000 values"),
    table::<256>("256 ranges of 1,000 values"),
];

const fn table<const K: usize>(name: &'static str) -> Table {
    Table {
        name,
        unit: Unit::Value,
        programs: ["Rust, a call a range", "engine, a call a range", "engine, one call"],
        ratios: &[("one call / Rust", 1.0), ("one call / a call a range", 1.0)],
        rows,
        times: times::<K>,
        difference: difference::<K>,
    }
}

fn rows() -> Vec<Row> {
    let (keep, count) = (Rates::Keep, RANGES as u64 * LENGTH);
    vec![
        row("contiguous", keep, &[(count, 1)], &[0], keep.draw(count as usize)),
        rows_of("rows of 64 with a gap", keep, count, 1),
        rows_of("rows of 64 at stride 2 with a gap", keep, count, 2),
        rows_in_house("rows of 64 over three axes", keep, [8, 5, 100]),
    ]
}

/// A call for each range. Whether none is refused.
fn a_call_a_range(job: &Job, list: &Ranges, out: &mut [Place]) -> bool {
    let mut ranges = list.starts.iter().zip(&list.ends).zip(out);
    ranges.all(|((&start, &end), place)| job.part(start, end, place) == 0)
}

/// A call for each `K` ranges. Whether none is refused.
fn in_calls<const K: usize>(job: &Job, list: &Ranges, out: &mut Buffers) -> bool {
    let mut lists = list.starts.chunks(K).zip(list.ends.chunks(K)).zip(Places::of(out).chunks(K));
    lists.all(|((starts, ends), mut places)| job.parts(starts, ends, &mut places) == 0)
}

fn times<const K: usize>(job: &Job, least: Duration) -> [f64; 3] {
    let list = cut(job.count(), RANGES);
    let mut places = [Place { m: 0.0, e: 0, bad: 0 }; RANGES];
    let mut out = unwritten(RANGES);
    timing::by_turns(
        1,
        least,
        |_| {
            for (&start, &end) in list.starts.iter().zip(&list.ends) {
                black_box(job.rust_part(start, end));
            }
        },
        |_| a_call_a_range(job, &list, black_box(&mut places)),
        |_| in_calls::<K>(job, &list, black_box(&mut out)),
    )
}

/// The first range of which the engine has another accumulator than the oracle, by itself or in one call.
fn difference<const K: usize>(job: &Job) -> Option<String> {
    let list = cut(job.count(), RANGES);
    let mut alone = [Place { m: f64::NAN, e: i64::MIN, bad: 1 }; RANGES];
    let mut out = unwritten(RANGES);
    if !a_call_a_range(job, &list, &mut alone) || !in_calls::<K>(job, &list, &mut out) {
        return Some(String::from("the engine refuses a call"));
    }
    (0..RANGES).find_map(|at| {
        let expected = job.expected_part(list.starts[at], list.ends[at]);
        let (alone, found) = (alone[at].bits(), places::read(&out, at));
        (alone != expected || found != expected).then(|| {
            format!("range {at}: the oracle gives {expected:x?}, the engine {alone:x?}, and in one call {found:x?}")
        })
    })
}
