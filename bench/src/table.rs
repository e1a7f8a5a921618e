//! The table of docs/PERFORMANCE.md: nanoseconds a value, and how long the engine takes beside the Rust.

use crate::job::Job;
use crate::rates::Rates;
use crate::timing;
use std::time::Duration;

const LEAST: Duration = Duration::from_millis(300);

/// Between two rows of a table lies a line of the cache that is not read.
pub const GAP: u64 = 8;

/// A row of so many values is timed beside reading them alone.
const FROM_MEMORY: u64 = 10_000_000;

/// Short calls take turns with so many bases.
pub const TURNS: i64 = 64;

pub struct Row {
    pub name: String,
    pub rates: &'static str,
    pub job: Job,
}

/// The rows of the table, in lists that are drawn one after another.
pub const LISTS: [fn() -> Vec<Row>; 6] = [contiguous, stepped, rows_with_gaps, spoiled, calls, signed];

/// Whether all answers were the same.
pub fn print() -> bool {
    print_rows(&LISTS)
}

/// Each list of rows is drawn only when the one before it is measured.
pub fn print_rows(lists: &[fn() -> Vec<Row>]) -> bool {
    println!("| case | rates | Rust | Rust, compiled ahead | engine | engine / Rust |");
    println!("|---|---|---:|---:|---:|---:|");
    lists.iter().all(|make| make().iter().all(print_row))
}

fn print_row(row: &Row) -> bool {
    if let Some((base, expected, found)) = row.job.difference() {
        println!("{}, from {base}: the oracle gives {expected:x?}, the engine {found:x?}", row.name);
        return false;
    }
    let times = timing::measure(&row.job, LEAST);
    let count = row.job.count() as f64;
    println!(
        "| {} | {} | {:.3} | {:.3} | {:.3} | {:.3} |",
        row.name,
        row.rates,
        times.rust / count,
        times.rust_ahead / count,
        times.engine / count,
        times.engine / times.rust
    );
    if row.job.count() >= FROM_MEMORY {
        let reading = timing::reading(&row.job.values, LEAST);
        println!("| {}, reading alone | {} | {reading:.3} | | | |", row.name, row.rates);
    }
    true
}

/// The whole of a layout, from each of the bases by turns.
pub fn row(name: &str, rates: Rates, axes: &[(u64, i64)], bases: &[i64], values: Vec<f64>) -> Row {
    part(name, rates, axes, axes.iter().map(|axis| axis.0).product(), bases, values)
}

/// The first elements of a layout, from each of the bases by turns.
pub fn part(name: &str, rates: Rates, axes: &[(u64, i64)], count: u64, bases: &[i64], values: Vec<f64>) -> Row {
    Row { name: String::from(name), rates: rates.name(), job: Job::new(axes, count, bases.to_vec(), values) }
}

fn contiguous() -> Vec<Row> {
    let keep = Rates::Keep;
    let most = FROM_MEMORY;
    vec![
        row("contiguous, 1e5 (in cache)", keep, &[(100_000, 1)], &[0], keep.draw(100_000)),
        row("contiguous, 1e7 (80 MB)", keep, &[(most, 1)], &[0], keep.draw(most as usize)),
    ]
}

fn stepped() -> Vec<Row> {
    let (keep, spread) = (Rates::Keep, Rates::Spread);
    let each: Vec<i64> = (0..TURNS).collect();
    vec![
        row("stride 2, 1e5", keep, &[(100_000, 2)], &[0, 1], keep.draw(200_000)),
        row("stride 2, 1e5", spread, &[(100_000, 2)], &[0, 1], spread.draw(200_000)),
        row("stride -1, 1e5", keep, &[(100_000, -1)], &[99_999, 199_999], keep.draw(200_000)),
        row("stride -1, 1e5", spread, &[(100_000, -1)], &[99_999, 199_999], spread.draw(200_000)),
        row("stride 0, 1e5", keep, &[(100_000, 0)], &each, keep.draw(TURNS as usize)),
    ]
}

fn rows_with_gaps() -> Vec<Row> {
    let mut out = Vec::new();
    for (length, stride) in [(8, 1), (16, 1), (64, 1), (16, 2)] {
        for rates in [Rates::Keep, Rates::Spread] {
            let (rows, pitch) = (1_000_000 / length, length * stride + GAP);
            let at = if stride == 1 { String::new() } else { format!(" at stride {stride}") };
            let name = format!("rows of {length}{at} with a gap, 1e6");
            let values = rates.draw((rows * pitch) as usize);
            out.push(row(&name, rates, &[(rows, pitch as i64), (length, stride as i64)], &[0], values));
        }
    }
    out
}

fn spoiled() -> Vec<Row> {
    let keep = Rates::Keep;
    let tiny = keep.with_one_a_block(100_000, |rate| rate * 2f64.powi(-130));
    let zero = keep.with_one_a_block(100_000, |_| 0.0);
    vec![
        row("contiguous, 1e5, one rate a block below 2^-120", keep, &[(100_000, 1)], &[0], tiny),
        row("contiguous, 1e5, one zero a block", keep, &[(100_000, 1)], &[0], zero),
    ]
}

fn signed() -> Vec<Row> {
    let (both, rows, pitch) = (Rates::Signed, 1_000_000 / 16, 16 + GAP);
    let table = both.draw((rows * pitch) as usize);
    vec![
        row("contiguous, 1e5 (in cache)", both, &[(100_000, 1)], &[0], both.draw(100_000)),
        row("stride 2, 1e5", both, &[(100_000, 2)], &[0, 1], both.draw(200_000)),
        row("rows of 16 with a gap, 1e6", both, &[(rows, pitch as i64), (16, 1)], &[0], table),
    ]
}

fn calls() -> Vec<Row> {
    let keep = Rates::Keep;
    let call = |count: u64| {
        let bases: Vec<i64> = (0..TURNS).map(|turn| turn * count as i64).collect();
        let values = keep.draw((TURNS as u64 * count) as usize);
        row(&format!("a call of {count} values, contiguous"), keep, &[(count, 1)], &bases, values)
    };
    vec![call(8), call(64), call(1000)]
}
