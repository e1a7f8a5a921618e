//! Calls that are seldom met, in a table of their own: where the engine's lanes cannot wait, and where there is more to
//! do before the first value than for all of them. With subnormal rates the Rust is timed on the same values, although
//! it takes them for bad and gives another answer.

use crate::rates::Rates;
use crate::table::{self, row, Row, GAP};

const COUNT: usize = 100_000;
const KEEP: Rates = Rates::Keep;

/// The rows of the table, in lists that are drawn one after another.
pub const LISTS: [fn() -> Vec<Row>; 5] = [contiguous, stepped, short_rows, many_axes, two_axes];

/// Whether all answers were the same.
pub fn print() -> bool {
    table::print_rows(&LISTS)
}

fn run(name: &str, stride: i64, values: Vec<f64>) -> Row {
    row(name, KEEP, &[(COUNT as u64, stride)], &[0], values)
}

fn contiguous() -> Vec<Row> {
    let all = |scale: f64| KEEP.scaled(COUNT, scale);
    let one = |other| KEEP.with_one_a_block(COUNT, other);
    vec![
        run("contiguous, 1e5, one rate a block a millionth", 1, one(|rate| rate * 1e-6)),
        run("contiguous, 1e5, all rates a millionth", 1, all(1e-6)),
        run("contiguous, 1e5, all rates a million times", 1, all(1e6)),
        run("contiguous, 1e5, all rates below 2^-120", 1, all(2f64.powi(-130))),
        run("contiguous, 1e5, one subnormal a block", 1, one(subnormal)),
        run("contiguous, 1e5, all rates subnormal", 1, all_subnormal(COUNT)),
        run("contiguous, 1e5, a zero in 3000", 1, zero_in(3000, KEEP.draw(COUNT))),
    ]
}

/// The rate times 2^-1022 to 2^-1073, chosen by its last digits: how many digits the fraction has, and so the shift to
/// the leading place, varies.
fn subnormal(rate: f64) -> f64 {
    rate * 2f64.powi(-1022) * 2f64.powi(-((rate.to_bits() % 52) as i32))
}

fn all_subnormal(count: usize) -> Vec<f64> {
    KEEP.draw(count).into_iter().map(subnormal).collect()
}

/// One value in so many becomes a zero.
fn zero_in(every: usize, mut values: Vec<f64>) -> Vec<f64> {
    values.iter_mut().skip(3).step_by(every).for_each(|value| *value = 0.0);
    values
}

/// One value in so many becomes subnormal.
fn subnormal_in(every: usize, mut values: Vec<f64>) -> Vec<f64> {
    values.iter_mut().skip(3).step_by(every).for_each(|value| *value = subnormal(*value));
    values
}

/// Every second value is read, so that about half of the blocks have their other rate.
fn stepped() -> Vec<Row> {
    let one = |other| KEEP.with_one_a_block(2 * COUNT, other);
    let zero_at = |number: usize| {
        let mut values = KEEP.draw(2 * COUNT);
        values[2 * number] = 0.0;
        values
    };
    vec![
        run("stride 2, 1e5, a rate a millionth in some blocks", 2, one(|rate| rate * 1e-6)),
        run("stride 2, 1e5, a rate below 2^-120 in some blocks", 2, one(|rate| rate * 2f64.powi(-130))),
        run("stride 2, 1e5, a subnormal in some blocks", 2, one(subnormal)),
        run("stride 2, 1e5, a zero in some blocks", 2, one(|_| 0.0)),
        run("stride 2, 1e5, one zero in the middle", 2, zero_at(COUNT / 2 + 3)),
        run("stride 2, 1e5, the last value a zero", 2, zero_at(COUNT - 1)),
    ]
}

fn short_rows() -> Vec<Row> {
    let with = |length: u64, name: &str, values: fn(usize) -> Vec<f64>| {
        let (rows, pitch) = (COUNT as u64 / length, length + GAP);
        let axes = [(rows, pitch as i64), (length, 1)];
        row(&format!("rows of {length} with a gap, 1e5{name}"), KEEP, &axes, &[0], values((rows * pitch) as usize))
    };
    vec![
        with(2, "", |count| KEEP.draw(count)),
        with(4, "", |count| KEEP.draw(count)),
        with(16, ", one rate in 64 a millionth", |count| KEEP.with_one_a_block(count, |rate| rate * 1e-6)),
        with(16, ", a subnormal in one row of four", |count| subnormal_in(4 * 24, KEEP.draw(count))),
        with(16, ", a zero in one row of four", |count| zero_in(4 * 24, KEEP.draw(count))),
        with(100, "", |count| KEEP.draw(count)),
    ]
}

/// No two of the axes fuse.
fn many_axes() -> Vec<Row> {
    let call = |count: u32| {
        let axes: Vec<(u64, i64)> = (0..count).rev().map(|axis| (2, 3i64.pow(axis))).collect();
        let name = format!("a call of 2^{count} values, {count} axes of size 2");
        row(&name, KEEP, &axes, &[0], KEEP.draw(3usize.pow(count)))
    };
    vec![call(2), call(4), call(8), call(9), call(12)]
}

/// Rows of eight with a gap, of which a call takes the first values: one row, and one of several.
fn two_axes() -> Vec<Row> {
    [1, 8, 64]
        .into_iter()
        .map(|count| {
            let name = format!("a call of {count} value{}, 2 axes of size 8", if count == 1 { "" } else { "s" });
            let bases: Vec<i64> = (0..64).map(|turn| turn * 128).collect();
            table::part(&name, KEEP, &[(8, 16), (8, 1)], count, &bases, KEEP.draw(65 * 128))
        })
        .collect()
}
