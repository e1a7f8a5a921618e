//! Ours: calls into the source, with plain records for answers.
//!
//! The source keeps the fields of its records to itself. They are read back here from its own debug print, which
//! gives every number exactly, and accumulators are made by its own splitting and joining.

use super::reduce_kernel::{
    reduce_full_range, FullTraversal, OrderedProductKernel, ReduceKernel, StableProductKernel, StableProductScalar,
};
use super::ErasedReduceScalar;
use crate::Result;
use std::cell::RefCell;
use std::ops::Range;

/// The source's compiled layout as it is. The benchmark times it, so nothing is read back here.
#[derive(Clone)]
pub struct Plan(FullTraversal);

/// The source's accumulator as it is.
#[derive(Clone, Copy)]
pub struct Answer(SourceAcc);

/// A compiled layout. `axes` holds size, step and reset of each outer axis.
#[derive(Clone)]
pub struct Layout {
    pub total: u64,
    pub run_len: u64,
    pub run_stride: i64,
    pub axes: Vec<(u64, i64, i64)>,
    plan: Plan,
}

/// An accumulator of the stable product.
#[derive(Clone, Copy)]
pub struct Acc {
    pub m: f64,
    pub e: i64,
    pub bad: bool,
}

impl Acc {
    /// The bits of m, e and the mark, to be compared.
    pub fn fields(self) -> (u64, i64, bool) {
        (self.m.to_bits(), self.e, self.bad)
    }
}

impl Layout {
    /// The layout of total 0, as the rule has it. No range of it is accepted, so its plan is never walked.
    pub fn without_elements() -> Layout {
        let plan = Plan::compile(&[0], &[1]).expect("one axis of size 0 overflows nothing");
        Layout { total: 0, run_len: 0, run_stride: 1, axes: Vec::new(), plan }
    }
}

type SourceAcc = <f64 as StableProductScalar>::StableProductAcc;

/// What stands after each `name: ` in a debug print, up to the next separator.
fn fields<'a>(print: &'a str, name: &str) -> Vec<&'a str> {
    let mark = format!(" {name}: ");
    print
        .match_indices(&mark)
        .map(|(at, _)| {
            let rest = &print[at + mark.len()..];
            &rest[..rest.find([',', ' ', '}']).unwrap_or(rest.len())]
        })
        .collect()
}

fn numbers<T: std::str::FromStr>(print: &str, name: &str) -> Vec<T> {
    fields(print, name)
        .iter()
        .map(|text| text.parse().unwrap_or_else(|_| panic!("{name} in {print}")))
        .collect()
}

fn only<T: std::str::FromStr + Copy>(print: &str, name: &str) -> T {
    let found = numbers(print, name);
    assert_eq!(found.len(), 1, "{name} in {print}");
    found[0]
}

impl Plan {
    pub fn compile(dims: &[usize], steps: &[isize]) -> Result<Plan> {
        Ok(Plan(FullTraversal::compile(dims, steps)?))
    }

    /// The product of a range whose elements all lie inside the values.
    pub fn product(&self, base: isize, range: Range<usize>, values: &[f64]) -> Answer {
        Answer(reduce::<f64, StableProductKernel>(self, base, range, values))
    }

    /// The ordered product of such a range. A NaN has the bits that the machine gives it.
    pub fn ordered(&self, base: isize, range: Range<usize>, values: &[f64]) -> f64 {
        reduce::<f64, OrderedProductKernel>(self, base, range, values)
    }

    /// The finished product of such a range, made again by the stable kernel's own fallback where that asks for it.
    pub fn figure(&self, base: isize, range: Range<usize>, values: &[f64]) -> f64 {
        type Fallback = <StableProductKernel as ReduceKernel<f64>>::Fallback;
        let acc = reduce::<f64, StableProductKernel>(self, base, range.clone(), values);
        if <StableProductKernel as ReduceKernel<f64>>::needs_ordered_fallback(&acc) {
            reduce::<f64, Fallback>(self, base, range, values)
        } else {
            f64::sp_finish(acc)
        }
    }
}

impl Answer {
    /// Joined with what comes behind it. The exponents are small enough. Only the benchmark asks for it.
    #[allow(dead_code)]
    pub fn then(self, right: Answer) -> Answer {
        Answer(f64::sp_combine(self.0, right.0))
    }

    pub fn read(self) -> Acc {
        read(self.0)
    }
}

pub fn compile(sizes: &[u64], strides: &[i64]) -> Result<Layout> {
    let dims: Vec<usize> = sizes.iter().map(|&size| size as usize).collect();
    let steps: Vec<isize> = strides.iter().map(|&stride| stride as isize).collect();
    let plan = Plan::compile(&dims, &steps)?;
    let print = format!("{:?}", plan.0);
    let extents = numbers(&print, "extent");
    let steps = numbers(&print, "source_step");
    let resets = numbers(&print, "source_reset");
    Ok(Layout {
        total: plan.0.total() as u64,
        run_len: only(&print, "run_len"),
        run_stride: only(&print, "run_stride"),
        axes: (0..extents.len()).map(|i| (extents[i], steps[i], resets[i])).collect(),
        plan,
    })
}

thread_local! {
    static VISITED: RefCell<Vec<i64>> = const { RefCell::new(Vec::new()) };
}

/// A kernel that notes each value it is handed, in the order of the source's own loop.
struct Recording;

impl ReduceKernel<i64> for Recording {
    type Acc = i64;
    type Fallback = Self;
    const SCALAR_ACC: bool = true;

    fn identity() -> i64 {
        0
    }
    fn from_value(value: i64) -> i64 {
        value
    }
    fn combine(_lhs: i64, rhs: i64) -> i64 {
        VISITED.with(|visited| visited.borrow_mut().push(rhs));
        rhs
    }
    fn finish(acc: i64) -> i64 {
        acc
    }
    fn reassociable() -> bool {
        false
    }
}

fn reduce<T: ErasedReduceScalar, K: ReduceKernel<T>>(
    plan: &Plan,
    base: isize,
    range: Range<usize>,
    values: &[T],
) -> K::Acc {
    // SAFETY: the caller has seen to it that every element of the layout lies inside the values, and that the
    // range is not empty and ends within the total.
    let acc = unsafe { reduce_full_range::<T, K>(values.as_ptr(), base, &plan.0, range) };
    acc.unwrap_or_else(|error| panic!("an accepted range answered {error:?}"))
}

/// The offsets that the source's loop reads, in its order. Every element must lie below `length`.
pub fn visited(layout: &Layout, base: i64, range: (u64, u64), length: u64) -> Vec<i64> {
    let own_index: Vec<i64> = (0..length as i64).collect();
    VISITED.with(|visited| visited.borrow_mut().clear());
    let range = range.0 as usize..range.1 as usize;
    reduce::<i64, Recording>(&layout.plan, base as isize, range, &own_index);
    VISITED.with(|visited| visited.take())
}

/// The product of a range whose elements all lie inside the values.
pub fn product(layout: &Layout, base: i64, range: (u64, u64), values: &[f64]) -> Acc {
    layout.plan.product(base as isize, range.0 as usize..range.1 as usize, values).read()
}

/// The ordered product of such a range.
pub fn ordered(layout: &Layout, base: i64, range: (u64, u64), values: &[f64]) -> f64 {
    layout.plan.ordered(base as isize, range.0 as usize..range.1 as usize, values)
}

/// The figure of such a range.
pub fn figure(layout: &Layout, base: i64, range: (u64, u64), values: &[f64]) -> f64 {
    layout.plan.figure(base as isize, range.0 as usize..range.1 as usize, values)
}

fn read(acc: SourceAcc) -> Acc {
    let print = format!("{acc:?}");
    Acc { m: only(&print, "m"), e: only(&print, "e"), bad: only(&print, "bad") }
}

/// The source's accumulator with these fields: m is split, the exponent comes on by doublings, and a zero on the
/// right marks it bad and keeps the rest.
fn made(acc: Acc) -> SourceAcc {
    let mut out = f64::sp_from_value(acc.m);
    let mut power = f64::sp_from_value(if acc.e < 0 { 0.5 } else { 2.0 });
    let mut left = acc.e.unsigned_abs();
    while left != 0 {
        if left % 2 == 1 {
            out = f64::sp_combine(out, power);
        }
        power = f64::sp_combine(power, power);
        left /= 2;
    }
    if acc.bad {
        out = f64::sp_combine(out, f64::sp_from_value(0.0));
    }
    out
}

/// Both have 1 <= |m| < 2 and |e| at most 2^52.
pub fn join(left: Acc, right: Acc) -> Acc {
    read(f64::sp_combine(made(left), made(right)))
}

/// It has 1 <= |m| < 2 and |e| at most 2^52.
pub fn finish(acc: Acc) -> f64 {
    f64::sp_finish(made(acc))
}
