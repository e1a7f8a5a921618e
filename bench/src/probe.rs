//! The engine's calls (crates/probe). Nothing checks these declarations against the library, so they all stand here, but
//! that of windows (`window_probe.rs`). A slice passes as a pointer and then a length, and a bool in memory is a byte.

use crate::generate::reduce::Call;
use crate::ranges;

/// A job has at most so many axes.
pub const PLACES: usize = 16;

/// A C function over a layout and a range, as most begin, with its own words behind them.
macro_rules! declared {
    ($name:ident($($word:ident: $type:ty),+)) => {
        extern "C" {
            fn $name(
                sizes: *const u64,
                sizes_len: usize,
                strides: *const i64,
                strides_len: usize,
                base: i64,
                start: u64,
                end: u64,
                $($word: $type),+
            ) -> u32;
        }
    };
}

declared!(probe_reduce(values: *const f64, values_len: usize, m: *mut f64, e: *mut i64, bad: *mut u8));
declared!(probe_list(length: u64, out: *mut i64, out_len: usize));
declared!(probe_ordered(values: *const f64, values_len: usize, number: *mut f64));
declared!(probe_figure(values: *const f64, values_len: usize, number: *mut f64));
declared!(probe_first(values: *const f64, values_len: usize, found: *mut u8, element: *mut u64, offset: *mut i64));
declared!(probe_step(
    values: *const f64,
    values_len: usize,
    n: u64,
    next: *mut u64,
    m: *mut f64,
    e: *mut i64,
    bad: *mut u8,
    pieces: *mut u64,
    done: *mut u8
));
declared!(probe_write(out: *mut u8, out_len: usize, count: *mut usize));

extern "C" {
    fn probe_read(
        bytes: *const u8,
        bytes_len: usize,
        count: *mut usize,
        sizes: *mut [u64; PLACES],
        strides: *mut [i64; PLACES],
        base: *mut i64,
        start: *mut u64,
        end: *mut u64,
    ) -> u32;

    fn probe_ranges(
        sizes: *const u64,
        sizes_len: usize,
        strides: *const i64,
        strides_len: usize,
        base: i64,
        starts: *const u64,
        starts_len: usize,
        ends: *const u64,
        ends_len: usize,
        values: *const f64,
        values_len: usize,
        ms: *mut f64,
        ms_len: usize,
        es: *mut i64,
        es_len: usize,
        bads: *mut u8,
        bads_len: usize,
    ) -> u32;

    fn probe_join(
        left_m: f64,
        left_e: i64,
        left_bad: bool,
        right_m: f64,
        right_e: i64,
        right_bad: bool,
        m: *mut f64,
        e: *mut i64,
        bad: *mut u8,
    ) -> u32;

    fn probe_finish(m: f64, e: i64, bad: bool, number: *mut f64) -> u32;
}

/// An accumulator, or a place for one. The mark is read as the byte it is, which must be 0 or 1.
#[derive(Clone, Copy)]
pub struct Place {
    pub m: f64,
    pub e: i64,
    pub bad: u8,
}

/// An accumulator in plain numbers: the bits of m, the exponent in two's complement, and the mark.
pub type Bits = [u64; 3];

impl Place {
    pub fn bits(self) -> Bits {
        [self.m.to_bits(), self.e as u64, u64::from(self.bad)]
    }
}

/// The accumulator, or the number of a refusal.
pub type Reduced = Result<Bits, u32>;

/// A bad rate, or places for one. Whether one was found is read as the byte it is, which must be 0 or 1.
#[derive(Clone, Copy, Debug, Eq, PartialEq)]
pub struct BadPlace {
    pub found: u8,
    pub element: u64,
    pub offset: i64,
}

/// A bookmark, how many pieces were worked, and whether the range is done; or places for these. Whether it is done is
/// read as the byte it is, which must be 0 or 1.
#[derive(Clone, Copy)]
pub struct StepPlace {
    pub next: u64,
    pub acc: Place,
    pub pieces: u64,
    pub done: u8,
}

impl StepPlace {
    /// A loop of calls begins here. The accumulator is ignored, and none that a call gives.
    pub fn at(start: u64) -> StepPlace {
        StepPlace { next: start, acc: Place { m: f64::NAN, e: i64::MIN, bad: 1 }, pieces: 0, done: 0 }
    }
}

/// A job that was read, or places for one.
#[derive(Clone, Copy, Debug, Default, Eq, PartialEq)]
pub struct JobPlace {
    pub count: usize,
    pub sizes: [u64; PLACES],
    pub strides: [i64; PLACES],
    pub base: i64,
    pub start: u64,
    pub end: u64,
}

/// The bits of a number that is handed out, or the number of a refusal.
pub type Numbered = Result<u64, u32>;

/// A layout and a range of its elements.
pub struct Range<'a> {
    pub sizes: &'a [u64],
    pub strides: &'a [i64],
    pub base: i64,
    pub start: u64,
    pub end: u64,
}

impl Range<'_> {
    pub fn of(call: &Call) -> Range<'_> {
        Range {
            sizes: &call.axes.sizes,
            strides: &call.axes.strides,
            base: call.range.base,
            start: call.range.start,
            end: call.range.end,
        }
    }
}

/// A layout and a list of ranges of its elements: where each starts, and where each ends.
pub struct Ranges<'a> {
    pub sizes: &'a [u64],
    pub strides: &'a [i64],
    pub base: i64,
    pub starts: &'a [u64],
    pub ends: &'a [u64],
}

/// Places for the accumulators of ranges, or of windows: the i-th goes into place i of each. A mark that is written is
/// read as the byte it is, which must be 0 or 1.
pub struct Places<'a> {
    pub ms: &'a mut [f64],
    pub es: &'a mut [i64],
    pub bads: &'a mut [u8],
}

impl<'a> Places<'a> {
    pub fn of(buffers: &'a mut ranges::Buffers) -> Places<'a> {
        Places { ms: &mut buffers.ms, es: &mut buffers.es, bads: &mut buffers.bads }
    }

    /// So many places at a time, in order. No two chunks share a place, so each may go to a thread of its own.
    pub fn chunks(self, count: usize) -> impl Iterator<Item = Places<'a>> {
        let chunks = self.ms.chunks_mut(count).zip(self.es.chunks_mut(count)).zip(self.bads.chunks_mut(count));
        chunks.map(|((ms, es), bads)| Places { ms, es, bads })
    }
}

/// A call over a range: the layout and the range as all of them begin, and then its own words.
macro_rules! over_range {
    ($call:ident, $range:ident, $($word:expr),+) => {
        $call(
            $range.sizes.as_ptr(),
            $range.sizes.len(),
            $range.strides.as_ptr(),
            $range.strides.len(),
            $range.base,
            $range.start,
            $range.end,
            $($word),+
        )
    };
}

/// 0, with the accumulator in `place`; or the refusal 1 to 7, with `place` as it was.
#[inline]
pub fn reduce_into(range: &Range, values: &[f64], place: &mut Place) -> u32 {
    // SAFETY: each pointer goes with the length of its own slice, and only the fields of `place` are written.
    unsafe {
        over_range!(probe_reduce, range, values.as_ptr(), values.len(), &mut place.m, &mut place.e, &mut place.bad)
    }
}

#[inline]
pub fn reduce(range: &Range, values: &[f64]) -> Reduced {
    let mut place = Place { m: 0.0, e: 0, bad: 0 };
    match reduce_into(range, values, &mut place) {
        0 => Ok(place.bits()),
        code => Err(code),
    }
}

/// 0, with the offsets in the first places of `out`; or the refusal 1 to 8, with `out` as it was.
pub fn list(range: &Range, length: u64, out: &mut [i64]) -> u32 {
    // SAFETY: each pointer goes with the length of its own slice, and only `out` is written.
    unsafe {
        over_range!(probe_list, range, length, out.as_mut_ptr(), out.len())
    }
}

/// 0, with the ordered product in `number`; or the refusal 1 to 7, with `number` as it was.
#[inline]
pub fn ordered_into(range: &Range, values: &[f64], number: &mut f64) -> u32 {
    // SAFETY: each pointer goes with the length of its own slice, and only `number` is written.
    unsafe {
        over_range!(probe_ordered, range, values.as_ptr(), values.len(), number)
    }
}

/// 0, with the figure in `number`; or the refusal 1 to 7, with `number` as it was.
#[inline]
pub fn figure_into(range: &Range, values: &[f64], number: &mut f64) -> u32 {
    // SAFETY: each pointer goes with the length of its own slice, and only `number` is written.
    unsafe {
        over_range!(probe_figure, range, values.as_ptr(), values.len(), number)
    }
}

#[inline]
pub fn ordered(range: &Range, values: &[f64]) -> Numbered {
    let mut number = 0.0;
    match ordered_into(range, values, &mut number) {
        0 => Ok(number.to_bits()),
        code => Err(code),
    }
}

#[inline]
pub fn figure(range: &Range, values: &[f64]) -> Numbered {
    let mut number = 0.0;
    match figure_into(range, values, &mut number) {
        0 => Ok(number.to_bits()),
        code => Err(code),
    }
}

/// 0, with whether there is a bad rate in `place.found`, and where the first lies in the other two if so; or the refusal
/// 1 to 7, with `place` as it was.
#[inline]
pub fn first_into(range: &Range, values: &[f64], place: &mut BadPlace) -> u32 {
    // SAFETY: each pointer goes with the length of its own slice, and only the fields of `place` are written.
    unsafe {
        over_range!(probe_first, range, values.as_ptr(), values.len(), &mut place.found, &mut place.element, &mut place.offset)
    }
}

/// 0, with the bookmark behind at most `n` pieces in `place` (the next element number stays where the range is done), how
/// many they were, and whether it is done; or the refusal 1 to 7, 14, 15, 9 or 10, with `place` as it was.
#[inline]
pub fn step_into(range: &Range, values: &[f64], n: u64, place: &mut StepPlace) -> u32 {
    let StepPlace { next, acc, pieces, done } = place;
    // SAFETY: each pointer goes with the length of its own slice, and only the fields of `place` are written.
    unsafe {
        over_range!(probe_step, range, values.as_ptr(), values.len(), n, next, &mut acc.m, &mut acc.e, &mut acc.bad, pieces, done)
    }
}

/// A caller's loop over a range, by calls of at most `n` pieces: the accumulator or a refusal, and after how many calls.
#[inline]
pub fn by_steps(range: &Range, values: &[f64], n: u64) -> (Reduced, u64) {
    let mut place = StepPlace::at(range.start);
    let mut calls = 0;
    while place.done == 0 {
        calls += 1;
        match step_into(range, values, n, &mut place) {
            0 => (),
            code => return (Err(code), calls),
        }
    }
    (Ok(place.acc.bits()), calls)
}

/// 0, with the job in `place`; or the refusal 2, 11 or 12, with `place` as it was.
#[inline]
pub fn read_into(bytes: &[u8], place: &mut JobPlace) -> u32 {
    // SAFETY: the pointer goes with the length of its slice, and only the fields of `place` are written.
    unsafe {
        probe_read(
            bytes.as_ptr(),
            bytes.len(),
            &mut place.count,
            &mut place.sizes,
            &mut place.strides,
            &mut place.base,
            &mut place.start,
            &mut place.end,
        )
    }
}

/// 0, with the job in the first bytes of `out` and their number in `count`; or the refusal 1, 2 or 13, with both as they
/// were.
#[inline]
pub fn write_into(job: &Range, out: &mut [u8], count: &mut usize) -> u32 {
    // SAFETY: each pointer goes with the length of its own slice, and only `out` and `count` are written.
    unsafe {
        over_range!(probe_write, job, out.as_mut_ptr(), out.len(), count)
    }
}

/// 0, with the accumulator of range i in place i of each buffer, and the places past the ranges as they were; or the
/// refusal 1 to 4, 16 or 5 to 7, with all places as they were.
#[inline]
pub fn ranges_into(ranges: &Ranges, values: &[f64], places: &mut Places) -> u32 {
    // SAFETY: each pointer goes with the length of its own slice, and only the three buffers are written.
    unsafe {
        probe_ranges(
            ranges.sizes.as_ptr(),
            ranges.sizes.len(),
            ranges.strides.as_ptr(),
            ranges.strides.len(),
            ranges.base,
            ranges.starts.as_ptr(),
            ranges.starts.len(),
            ranges.ends.as_ptr(),
            ranges.ends.len(),
            values.as_ptr(),
            values.len(),
            places.ms.as_mut_ptr(),
            places.ms.len(),
            places.es.as_mut_ptr(),
            places.es.len(),
            places.bads.as_mut_ptr(),
            places.bads.len(),
        )
    }
}

/// 0, with the two joined in `place`; or the refusal 9 or 10, with `place` as it was.
pub fn join_into(left: Place, right: Place, place: &mut Place) -> u32 {
    let Place { m, e, bad } = place;
    // SAFETY: only the fields of `place` are written.
    unsafe { probe_join(left.m, left.e, left.bad != 0, right.m, right.e, right.bad != 0, m, e, bad) }
}

pub fn join(left: Place, right: Place) -> Result<Place, u32> {
    let mut place = left;
    match join_into(left, right, &mut place) {
        0 => Ok(place),
        code => Err(code),
    }
}

/// 0, with the finished number in `number`; or the refusal 9, with `number` as it was.
pub fn finish_into(acc: Place, number: &mut f64) -> u32 {
    // SAFETY: only `number` is written.
    unsafe { probe_finish(acc.m, acc.e, acc.bad != 0, number) }
}

pub fn finish(acc: Place) -> Numbered {
    let mut number = 0.0;
    match finish_into(acc, &mut number) {
        0 => Ok(number.to_bits()),
        code => Err(code),
    }
}
