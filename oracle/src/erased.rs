//! Ours: a stand-in for the source's file of this name, which we do not have.
//!
//! The axis records, the cursor, the reset and the fusing are written from rules L3 and L4 of the engine
//! and the cursor from rule L7.
//! What the benchmark times of this is marked `inline`, so that it does not slow the source down.
//! The inner axes and the names of the scalar trait serve only to compile what no case calls.
//! The source's: the module `reduce_kernel`, unchanged.

use crate::{Result, StridedError};

pub mod calls;
#[allow(dead_code)]
#[path = "reduce_kernel.rs"]
mod reduce_kernel;

#[derive(Clone, Copy, Debug)]
pub struct ReduceOuterAxis {
    pub extent: usize,
    pub source_step: isize,
    pub source_reset: isize,
    pub dest_step: isize,
    pub dest_reset: isize,
}

/// Rule L3: -(size - 1) × stride must fit, and so must size - 1 and the product before its sign is turned.
#[inline]
fn checked_reduce_reset(size: usize, stride: isize) -> Result<isize> {
    let less_one = i128::from(fit(size as i128 - 1)?);
    let product = i128::from(fit(less_one * stride as i128)?);
    Ok(fit(-product)? as isize)
}

/// The number where it fits an i64. Both factors of a product here lie below 2^64, so an i128 holds it.
#[inline]
fn fit(number: i128) -> Result<i64> {
    i64::try_from(number).map_err(|_| StridedError::OffsetOverflow)
}

/// Rule L4: from left to right, an axis and the next become one where step × size equals the next stride.
#[inline]
fn compress_reduce_outer_axes(axes: Vec<ReduceOuterAxis>) -> Result<Vec<ReduceOuterAxis>> {
    let mut fused = axes;
    let mut at = 0;
    while at + 1 < fused.len() {
        let (first, next) = (fused[at], fused[at + 1]);
        let reach = fit(first.source_step as i128 * first.extent as i128)?;
        if reach as isize != next.source_step {
            at += 1;
            continue;
        }
        let size = first.extent.checked_mul(next.extent).ok_or(StridedError::OffsetOverflow)?;
        fused[at].extent = size;
        fused[at].source_reset = checked_reduce_reset(size, first.source_step)?;
        fused.remove(at + 1);
    }
    Ok(fused)
}

/// A place among the runs: a digit for each outer axis, and the offset of the run's first element.
struct ReduceOuterCursor<'a> {
    source_offset: isize,
    dest_offset: isize,
    axes: &'a [ReduceOuterAxis],
    digits: Vec<usize>,
}

impl<'a> ReduceOuterCursor<'a> {
    #[inline]
    fn decode(number: usize, source: isize, dest: isize, axes: &'a [ReduceOuterAxis]) -> Result<Self> {
        let mut left = number;
        let mut offsets = (source as i128, dest as i128);
        let mut digits = Vec::new();
        for axis in axes {
            let digit = left % axis.extent;
            left /= axis.extent;
            offsets.0 += digit as i128 * axis.source_step as i128;
            offsets.1 += digit as i128 * axis.dest_step as i128;
            digits.push(digit);
        }
        Ok(ReduceOuterCursor {
            source_offset: fit(offsets.0)? as isize,
            dest_offset: fit(offsets.1)? as isize,
            axes,
            digits,
        })
    }

    #[inline]
    fn advance(&mut self) {
        for (digit, axis) in self.digits.iter_mut().zip(self.axes) {
            if *digit + 1 < axis.extent {
                *digit += 1;
                self.source_offset += axis.source_step;
                self.dest_offset += axis.dest_step;
                return;
            }
            *digit = 0;
            self.source_offset += axis.source_reset;
            self.dest_offset += axis.dest_reset;
        }
    }

    #[inline]
    fn leading_coord(&self) -> usize {
        self.digits.first().copied().unwrap_or(0)
    }
}

/// Only for what no case calls.
#[derive(Clone, Copy, Debug)]
struct ReduceInnerAxis {
    extent: usize,
    source_step: isize,
    source_reset: isize,
}

/// Only for what no case calls.
struct ReduceInnerCursor<'a> {
    source_offset: isize,
    axes: &'a [ReduceInnerAxis],
    digits: Vec<usize>,
}

impl<'a> ReduceInnerCursor<'a> {
    fn new(source_offset: isize, axes: &'a [ReduceInnerAxis]) -> Self {
        let digits = vec![0; axes.len()];
        ReduceInnerCursor { source_offset, axes, digits }
    }

    fn reset(&mut self, source_offset: isize) {
        self.source_offset = source_offset;
        self.digits.fill(0);
    }

    fn advance(&mut self) {
        for (digit, axis) in self.digits.iter_mut().zip(self.axes) {
            if *digit + 1 < axis.extent {
                *digit += 1;
                self.source_offset += axis.source_step;
                return;
            }
            *digit = 0;
            self.source_offset += axis.source_reset;
        }
    }
}

/// The names that the source asks of a scalar. Only f64 and i64 are reduced here, and only by products and by
/// the recording kernel of `calls`, so nothing but the unit and the product has a meaning.
trait ErasedReduceScalar: reduce_kernel::StableProductScalar + 'static {
    fn zero() -> Self;
    fn one() -> Self;
    fn reduce_product(lhs: Self, rhs: Self) -> Self;

    fn reduce_sum(_lhs: Self, _rhs: Self) -> Self {
        unreachable!("no case sums")
    }
    fn reduce_max(_lhs: Self, _rhs: Self) -> Self {
        unreachable!("no case takes a maximum")
    }
    fn reduce_min(_lhs: Self, _rhs: Self) -> Self {
        unreachable!("no case takes a minimum")
    }
    fn max_identity() -> Self {
        unreachable!("no case takes a maximum")
    }
    fn min_identity() -> Self {
        unreachable!("no case takes a minimum")
    }
    fn try_simd_sum(_values: &[Self]) -> Option<Self> {
        None
    }
    fn try_simd_product(_values: &[Self]) -> Option<Self> {
        None
    }
    fn try_simd_sum_squares(_values: &[Self]) -> Option<Self> {
        None
    }
    fn try_simd_add_block(_acc: &mut [Self], _values: &[Self]) -> bool {
        false
    }
    fn try_simd_mul_block(_acc: &mut [Self], _values: &[Self]) -> bool {
        false
    }
    fn try_simd_sum_squares_block(_acc: &mut [Self], _values: &[Self]) -> bool {
        false
    }
}

impl ErasedReduceScalar for f64 {
    fn zero() -> f64 {
        0.0
    }
    #[inline]
    fn one() -> f64 {
        1.0
    }
    #[inline]
    fn reduce_product(lhs: f64, rhs: f64) -> f64 {
        lhs * rhs
    }
}

impl ErasedReduceScalar for i64 {
    fn zero() -> i64 {
        0
    }
    fn one() -> i64 {
        1
    }
    fn reduce_product(lhs: i64, rhs: i64) -> i64 {
        lhs.wrapping_mul(rhs)
    }
}
