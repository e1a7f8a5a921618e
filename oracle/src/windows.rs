//! Ours: every w values in a row, in one call. The source has no such call. Each window is reduced here by itself
//! (`rules::product`), over the layout of w values side by side, which is compiled once.

use crate::erased::calls::Layout;
use crate::ranges::Buffers;
use crate::rules;

/// The refusal, and then nothing is written; or 0, with the accumulator of the window from value i on in place i.
pub fn reduce_windows(values: &[f64], w: u64, out: &mut Buffers) -> u32 {
    let layout = match accepted(values.len() as u64, w, out) {
        Ok(layout) => layout,
        Err(code) => return code,
    };
    // Each window is handed its own values alone, so that none can see another's.
    for (place, window) in values.windows(w as usize).enumerate() {
        out.put(place, rules::product(&layout, 0, (0, w), window));
    }
    0
}

/// Refusals 17, then 4, then 16. By then no window is longer than the values, so 4 is all that the layout can give. It
/// takes more than 2^40 values: a line has at most 4,096, so no case meets it, and a w that is as large gets 17.
fn accepted(length: u64, w: u64, out: &Buffers) -> Result<Layout, u32> {
    if w == 0 || w > length {
        return Err(17);
    }
    let layout = rules::compile(&[w], &[1])?;
    if (out.places() as u64) < length - w + 1 {
        return Err(16);
    }
    Ok(layout)
}
