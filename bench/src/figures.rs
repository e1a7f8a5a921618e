//! The calls that hand out a number, in a table for each: the ordered product, the figure of good rates, and the figure
//! of rates with one zero, for which the values are read twice.
//!
//! A product that is subnormal costs many times what another does, on both sides. So the rates are so near to 1 that
//! the running product stays a normal number; one row has the keep rates of the other tables, whose product does not.

use crate::beside::{Table, Unit, NO_AIM};
use crate::job::Job;
use crate::rates::Rates;
use crate::rules;
use crate::table::{self, Row, GAP, TURNS};
use crate::timing;

pub const TABLES: [Table; 3] = [
    Table {
        name: "ordered product",
        unit: Unit::Value,
        programs: ["Rust", "Rust, compiled ahead", "engine"],
        ratios: &[("engine / Rust", 1.05)],
        rows: ordered,
        difference: Job::number_difference,
        times: |job, least| {
            let plan = job.plan();
            timing::by_turns(
                job.turns(),
                least,
                |turn| job.rust_ordered(turn),
                |turn| job.rust_ordered_ahead(&plan, turn),
                |turn| job.ordered(turn),
            )
        },
    },
    Table {
        name: "figure, no bad rate",
        unit: Unit::Value,
        programs: ["Rust, reduce and finish", "engine, reduce alone", "engine"],
        ratios: &[("engine / Rust", 1.05), ("engine / reduce alone", 1.05)],
        rows: good,
        difference: Job::number_difference,
        times: |job, least| {
            timing::by_turns(
                job.turns(),
                least,
                |turn| job.rust_figure(turn),
                |turn| job.engine(turn),
                |turn| job.figure(turn),
            )
        },
    },
    Table {
        name: "figure, one zero in the middle",
        unit: Unit::Value,
        programs: ["Rust, reduce and ordered", "engine, reduce and ordered", "engine"],
        // Figures of short calls with a bad rate take longer than the Rust's two passes.
        ratios: &[("engine / Rust", NO_AIM), ("engine / reduce and ordered", 1.1)],
        rows: spoiled,
        difference: Job::number_difference,
        times: |job, least| {
            timing::by_turns(
                job.turns(),
                least,
                |turn| job.rust_figure(turn),
                |turn| (job.engine(turn), job.ordered(turn)),
                |turn| job.figure(turn),
            )
        },
    },
];

/// A layout, and the bases that its calls take turns with.
struct Shape {
    name: String,
    axes: Vec<(u64, i64)>,
    bases: Vec<i64>,
    length: usize,
}

fn shapes() -> Vec<Shape> {
    let (rows, pitch) = (1_000_000 / 16, 16 + GAP);
    let shape = |name: &str, axes: &[(u64, i64)], bases: Vec<i64>, length: u64| Shape {
        name: String::from(name),
        axes: axes.to_vec(),
        bases,
        length: length as usize,
    };
    let call = |count: u64| {
        let bases = (0..TURNS).map(|turn| turn * count as i64).collect();
        shape(&format!("a call of {count} values, contiguous"), &[(count, 1)], bases, TURNS as u64 * count)
    };
    vec![
        shape("contiguous, 1e5", &[(100_000, 1)], vec![0], 100_000),
        shape("stride 2, 1e5", &[(100_000, 2)], vec![0, 1], 200_000),
        shape("rows of 16 with a gap, 1e6", &[(rows, pitch as i64), (16, 1)], vec![0], rows * pitch),
        call(8),
        call(64),
    ]
}

impl Shape {
    /// From each base, the value behind the middle one becomes a zero.
    fn with_a_zero(&self, mut values: Vec<f64>) -> Vec<f64> {
        let (sizes, strides): (Vec<u64>, Vec<i64>) = self.axes.iter().copied().unzip();
        let axes = rules::axes(&sizes, &strides);
        let middle = sizes.iter().product::<u64>() / 2 + 1;
        self.bases.iter().for_each(|&base| values[rules::offset(&axes, base, middle) as usize] = 0.0);
        values
    }
}

/// A row for each shape, of values that are changed first. What the Rust gives must be as the row says.
fn rows(change: fn(&Shape, Vec<f64>) -> Vec<f64>, says: fn(&Job, usize) -> bool) -> Vec<Row> {
    let rates = Rates::Near;
    let row = |shape: &Shape| {
        let values = change(shape, rates.draw(shape.length));
        let row = table::row(&shape.name, rates, &shape.axes, &shape.bases, values);
        assert!((0..row.job.turns()).all(|turn| says(&row.job, turn)), "{} is as it says", row.name);
        row
    };
    shapes().iter().map(row).collect()
}

/// The product is a normal number.
fn good() -> Vec<Row> {
    rows(|_, values| values, |job, turn| job.rust_ordered(turn).is_normal())
}

/// Each call meets a bad rate.
fn spoiled() -> Vec<Row> {
    rows(Shape::with_a_zero, |job, turn| job.rust(turn).read().bad)
}

/// The last row has a product that comes down to a subnormal number and stays there.
fn ordered() -> Vec<Row> {
    let (keep, name) = (Rates::Keep, "contiguous, 1e5, keep rates: a subnormal product");
    let mut rows = good();
    rows.push(table::row(name, keep, &[(100_000, 1)], &[0], keep.draw(100_000)));
    rows
}
