//! The engine's call over windows (crates/windows_probe), declared as those of `probe.rs` are.

use crate::probe::Places;

extern "C" {
    fn probe_windows(
        values: *const f64,
        values_len: usize,
        w: u64,
        ms: *mut f64,
        ms_len: usize,
        es: *mut i64,
        es_len: usize,
        bads: *mut u8,
        bads_len: usize,
    ) -> u32;
}

/// 0, with the accumulator of the window from value i on in place i of each buffer, and the places past the last window
/// as they were; or the refusal 17, 4 or 16, with all places as they were.
#[inline]
pub fn windows_into(values: &[f64], w: u64, places: &mut Places) -> u32 {
    // SAFETY: each pointer goes with the length of its own slice, and only the three buffers are written.
    unsafe {
        probe_windows(
            values.as_ptr(),
            values.len(),
            w,
            places.ms.as_mut_ptr(),
            places.ms.len(),
            places.es.as_mut_ptr(),
            places.es.len(),
            places.bads.as_mut_ptr(),
            places.bads.len(),
        )
    }
}
