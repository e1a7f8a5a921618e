//! Ours: what the product engine adds to the source, stated from its rules: refusals 2 and 4 to 10, the order in
//! which they are asked, forward axes before backward ones of one |stride|, layouts with a size of 0, the offset of an
//! element, the first bad rate, and the one NaN. All sums and products of sizes here are made in 128 bits.
//!
//! The source's accumulator and its figure count only for ranges that visit no subnormal. The others have those of
//! `subnormal.rs`; every call asks `product`, which chooses. Ordered products are the source's for all ranges.

use crate::erased::calls::{self, Acc, Layout};
use crate::{subnormal, StridedError};

pub const MOST_AXES: usize = 16;
const MOST_ELEMENTS: u64 = 1 << 40;
const MOST_EXPONENT: u64 = 1 << 52;

/// Tables of this many elements and fewer are walked by the source's loop too.
const WALKED: u64 = 1 << 12;

pub struct Range {
    pub base: i64,
    pub start: u64,
    pub end: u64,
    pub length: u64,
}

/// Refusals 1 to 4. The source is asked with its axes forward first, and about no layout with a size of 0: in another
/// order such a size would hide another overflow.
pub fn compile(sizes: &[u64], strides: &[i64]) -> Result<Layout, u32> {
    if sizes.len() != strides.len() {
        return Err(1);
    }
    if sizes.len() > MOST_AXES {
        return Err(2);
    }
    if sizes.contains(&0) {
        return without_elements(sizes);
    }
    let (sizes, strides) = forward_first(sizes, strides);
    let layout = calls::compile(&sizes, &strides).map_err(|error| match error {
        StridedError::StrideLengthMismatch => 1u32,
        StridedError::OffsetOverflow => 3,
    })?;
    if layout.total > MOST_ELEMENTS {
        return Err(4);
    }
    Ok(layout)
}

/// Rule L1 where a size is 0: what overflows before it is refused by 3, what comes after it is hidden.
fn without_elements(sizes: &[u64]) -> Result<Layout, u32> {
    let mut product = 1u128;
    for &size in sizes {
        product *= u128::from(size);
        if product > u128::from(u64::MAX) {
            return Err(3);
        }
    }
    Ok(Layout::without_elements())
}

/// The axes as the source gets them. Its stable sort asks |stride| alone, so of the places in the list that axes of one
/// |stride| have, the forward ones get the first and the backward ones the rest, each in input order. No axis gets the
/// place of another |stride|: the sorting is left to the source, so that it is still compared.
pub fn forward_first(sizes: &[u64], strides: &[i64]) -> (Vec<u64>, Vec<i64>) {
    let mut places: Vec<usize> = (0..strides.len()).collect();
    let mut given = places.clone();
    places.sort_unstable_by_key(|&place| (strides[place].unsigned_abs(), place));
    given.sort_unstable_by_key(|&place| (strides[place].unsigned_abs(), strides[place] < 0, place));
    let (mut new_sizes, mut new_strides) = (sizes.to_vec(), strides.to_vec());
    for (to, from) in places.into_iter().zip(given) {
        new_sizes[to] = sizes[from];
        new_strides[to] = strides[from];
    }
    (new_sizes, new_strides)
}

/// The least and the greatest offset of a layout that has an element: base plus the sum of (size - 1) × stride
/// over the negative strides, and over the positive ones. In an accepted layout each of these fits an i64.
pub fn ends(sizes: &[u64], strides: &[i64], base: i64) -> (i128, i128) {
    let mut low = i128::from(base);
    let mut high = low;
    for (&size, &stride) in sizes.iter().zip(strides) {
        let span = (i128::from(size) - 1) * i128::from(stride);
        low = low.saturating_add(span.min(0));
        high = high.saturating_add(span.max(0));
    }
    (low, high)
}

/// Refusals 5 and 6 of a range over so many elements.
pub fn within(total: u64, start: u64, end: u64) -> Result<(), u32> {
    if start >= end {
        return Err(5);
    }
    if end > total {
        return Err(6);
    }
    Ok(())
}

/// Refusal 7 of a compiled layout over so many values. One without elements never gives it.
pub fn inside(layout: &Layout, sizes: &[u64], strides: &[i64], base: i64, length: u64) -> Result<(), u32> {
    if layout.total == 0 {
        return Ok(());
    }
    let (low, high) = ends(sizes, strides, base);
    if low < 0 || high > i128::from(i64::MAX) || high >= i128::from(length) {
        return Err(7);
    }
    Ok(())
}

/// Refusals 1 to 7.
pub fn range(sizes: &[u64], strides: &[i64], r: &Range) -> Result<Layout, u32> {
    let layout = compile(sizes, strides)?;
    within(layout.total, r.start, r.end)?;
    inside(&layout, sizes, strides, r.base, r.length)?;
    Ok(layout)
}

/// The axes of rule L2: those of size 1 dropped, the rest by |stride|, stride 0 last; of one |stride| the forward ones
/// before the backward ones, and else in input order.
pub fn axes(sizes: &[u64], strides: &[i64]) -> Vec<(u64, i64)> {
    let mut kept: Vec<(usize, u64, i64)> = (0..sizes.len())
        .filter(|&place| sizes[place] != 1)
        .map(|place| (place, sizes[place], strides[place]))
        .collect();
    kept.sort_unstable_by_key(|&(place, _, stride)| (stride == 0, stride.unsigned_abs(), stride < 0, place));
    kept.into_iter().map(|(_, size, stride)| (size, stride)).collect()
}

/// Where element k lies: base plus the sum of digit × stride, the digits being k in mixed radix over the axes of
/// rule L2, first axis fastest. No axis is fused here.
pub fn offset(axes: &[(u64, i64)], base: i64, k: u64) -> i64 {
    let mut left = k;
    let mut at = i128::from(base);
    for &(size, stride) in axes {
        at += i128::from(left % size) * i128::from(stride);
        left /= size;
    }
    i64::try_from(at).expect("an element of an accepted layout lies inside")
}

/// The offset list: refusals 1 to 8, or the buffer's new contents in its first places.
pub fn list(sizes: &[u64], strides: &[i64], r: &Range, buffer: &mut [i64]) -> u32 {
    let layout = match range(sizes, strides, r) {
        Ok(layout) => layout,
        Err(code) => return code,
    };
    if (buffer.len() as u64) < r.end - r.start {
        return 8;
    }
    let axes = axes(sizes, strides);
    for k in r.start..r.end {
        buffer[(k - r.start) as usize] = offset(&axes, r.base, k);
    }
    let count = (r.end - r.start) as usize;
    let (_, high) = ends(sizes, strides, r.base);
    if high < i128::from(WALKED) {
        let walked = calls::visited(&layout, r.base, (r.start, r.end), high as u64 + 1);
        assert_eq!(walked, buffer[..count], "the source's loop visits other elements than the rule says");
    }
    0
}

/// The accumulator of an accepted range: the source's, or our own rule's if a subnormal is visited. Where assertions
/// are on, our own rule must give what the source does, m and e beside a mark included.
pub fn product(layout: &Layout, base: i64, range: (u64, u64), values: &[f64]) -> Acc {
    if subnormal::is_visited(layout, base, range, values) {
        return subnormal::product(layout, base, range, values);
    }
    let acc = calls::product(layout, base, range, values);
    debug_assert_eq!(
        acc.fields(),
        subnormal::product(layout, base, range, values).fields(),
        "the source gives another accumulator than our own rule"
    );
    acc
}

pub fn reduce(sizes: &[u64], strides: &[i64], r: &Range, values: &[f64]) -> Result<Acc, u32> {
    let layout = range(sizes, strides, r)?;
    Ok(product(&layout, r.base, (r.start, r.end), values))
}

/// The one NaN for every pattern of a NaN: those of the Rust count as equal to it, as that of an infinity times 0,
/// which has a sign on x86.
pub fn one_nan(value: f64) -> f64 {
    if value.is_nan() {
        f64::from_bits(0x7ff8_0000_0000_0000)
    } else {
        value
    }
}

pub fn ordered(sizes: &[u64], strides: &[i64], r: &Range, values: &[f64]) -> Result<f64, u32> {
    let layout = range(sizes, strides, r)?;
    Ok(one_nan(calls::ordered(&layout, r.base, (r.start, r.end), values)))
}

/// The source's own figure, or, if a subnormal is visited, the ordered product where the mark is set, else the finished
/// number.
pub fn figure(sizes: &[u64], strides: &[i64], r: &Range, values: &[f64]) -> Result<f64, u32> {
    let layout = range(sizes, strides, r)?;
    let stretch = (r.start, r.end);
    if !subnormal::is_visited(&layout, r.base, stretch, values) {
        return Ok(one_nan(calls::figure(&layout, r.base, stretch, values)));
    }
    let acc = product(&layout, r.base, stretch, values);
    Ok(one_nan(if acc.bad { calls::ordered(&layout, r.base, stretch, values) } else { calls::finish(acc) }))
}

/// Where a bad rate stands: its element number in the layout, and its offset in the values.
pub struct BadRate {
    pub element: u64,
    pub offset: i64,
}

/// The first of the values that the source's loop visits which is zero, infinite or a NaN. There is one exactly if the
/// range's accumulator has its mark.
pub fn first_bad_rate(sizes: &[u64], strides: &[i64], r: &Range, values: &[f64]) -> Result<Option<BadRate>, u32> {
    let layout = range(sizes, strides, r)?;
    let visited = calls::visited(&layout, r.base, (r.start, r.end), r.length);
    let mut found = None;
    for (element, offset) in (r.start..).zip(visited) {
        if subnormal::is_bad(values[offset as usize]) {
            found = Some(BadRate { element, offset });
            break;
        }
    }
    let marked = product(&layout, r.base, (r.start, r.end), values).bad;
    assert_eq!(found.is_some(), marked, "the accumulator's mark says otherwise");
    Ok(found)
}

/// Refusal 9. A NaN has no magnitude in [1, 2), so it is refused too.
fn given(acc: Acc) -> Result<Acc, u32> {
    let size = acc.m.abs();
    if size >= 1.0 && size < 2.0 && acc.e.unsigned_abs() <= MOST_EXPONENT {
        Ok(acc)
    } else {
        Err(9)
    }
}

/// Refusals 9, then 10, which is asked of the exponent after the carry.
pub fn join(left: Acc, right: Acc) -> Result<Acc, u32> {
    let joined = calls::join(given(left)?, given(right)?);
    if !joined.bad && joined.e.unsigned_abs() > MOST_EXPONENT {
        return Err(10);
    }
    Ok(joined)
}

pub fn finish(answer: Result<Acc, u32>) -> Result<f64, u32> {
    Ok(calls::finish(given(answer?)?))
}
