//! Ours: the ranges of several workers in one call. The source has no such call. Each range is reduced here by itself
//! (`rules::product`), over the layout, which is compiled once.

use crate::erased::calls::{Acc, Layout};
use crate::generate::{floats_text, items_text};
use crate::rules;

/// Worker i has the elements from start i to end i. Both lists should have one length.
pub struct Ranges {
    pub starts: Vec<u64>,
    pub ends: Vec<u64>,
}

/// What a call fills: place i of each has the accumulator of range i, or of window i. The mark is a byte, 0 or 1.
#[derive(Clone)]
pub struct Buffers {
    pub ms: Vec<f64>,
    pub es: Vec<i64>,
    pub bads: Vec<u8>,
}

impl Buffers {
    /// How many accumulators have a place in each of the three.
    pub fn places(&self) -> usize {
        self.ms.len().min(self.es.len()).min(self.bads.len())
    }

    pub fn put(&mut self, place: usize, acc: Acc) {
        self.ms[place] = acc.m;
        self.es[place] = acc.e;
        self.bads[place] = u8::from(acc.bad);
    }

    /// The three lists as they stand in a line and in its answer.
    pub fn text(&self) -> String {
        let ms: Vec<u64> = self.ms.iter().map(|m| m.to_bits()).collect();
        floats_text(&ms) + &items_text(&self.es) + &items_text(&self.bads)
    }
}

/// The refusal, and then nothing is written; or 0, with the accumulators in the first places.
pub fn reduce_ranges(
    sizes: &[u64],
    strides: &[i64],
    base: i64,
    ranges: &Ranges,
    values: &[f64],
    out: &mut Buffers,
) -> u32 {
    let layout = match accepted(sizes, strides, base, ranges, values.len() as u64, out) {
        Ok(layout) => layout,
        Err(code) => return code,
    };
    // Without elements no range is accepted, so nothing is reduced then.
    for (place, (&start, &end)) in ranges.starts.iter().zip(&ranges.ends).enumerate() {
        out.put(place, rules::product(&layout, base, (start, end), values));
    }
    0
}

/// Refusals 1 to 4, then 16, then 5 and 6 of each range in turn, then 7, which is asked without any range too.
fn accepted(
    sizes: &[u64],
    strides: &[i64],
    base: i64,
    ranges: &Ranges,
    length: u64,
    out: &Buffers,
) -> Result<Layout, u32> {
    let layout = rules::compile(sizes, strides)?;
    let count = ranges.starts.len();
    if ranges.ends.len() != count || out.places() < count {
        return Err(16);
    }
    for (&start, &end) in ranges.starts.iter().zip(&ranges.ends) {
        rules::within(layout.total, start, end)?;
    }
    rules::inside(&layout, sizes, strides, base, length)?;
    Ok(layout)
}
