//! Ours: a reduction that is worked in several calls, some pieces in each. The source has no such call. Every piece is
//! reduced here as a range of its own (`rules::product`), and the pieces are joined by the source's joining.

use crate::erased::calls::{Acc, Layout};
use crate::rules::{self, Range};

/// Where a reduction goes on: the next element number, and the accumulator of what comes before it.
#[derive(Clone, Copy)]
pub struct Bookmark {
    pub next: u64,
    pub acc: Acc,
}

/// The bookmark behind the pieces that a call worked, how many they are, and whether they reach the range's end.
pub struct StepResult {
    pub to: Bookmark,
    pub pieces: u64,
    pub done: bool,
}

/// Rule A6: a piece begins at the start, and at each later element number of the range that the run length divides.
fn begins_piece(layout: &Layout, r: &Range, element: u64) -> bool {
    element == r.start || (r.start < element && element < r.end && element % layout.run_len == 0)
}

/// Refusals 1 to 7, 14, 15, 9, 10 in this order, or what the pieces from the bookmark on give, at most `most` of them.
pub fn step(
    sizes: &[u64],
    strides: &[i64],
    r: &Range,
    values: &[f64],
    from: &Bookmark,
    most: u64,
) -> Result<StepResult, u32> {
    let layout = rules::range(sizes, strides, r)?;
    if most == 0 {
        return Err(14);
    }
    if !begins_piece(&layout, r, from.next) {
        return Err(15);
    }
    let mut acc = if from.next == r.start { None } else { Some(from.acc) };
    let mut next = from.next;
    let mut pieces = 0;
    while next < r.end && pieces < most {
        let past = (next + 1..r.end).find(|&element| begins_piece(&layout, r, element)).unwrap_or(r.end);
        let piece = rules::product(&layout, r.base, (next, past), values);
        // Refusals 9 and 10 are those of joining: 9 of the given accumulator at the first join, 10 after each.
        acc = Some(acc.map_or(Ok(piece), |left| rules::join(left, piece))?);
        next = past;
        pieces += 1;
    }
    let acc = acc.expect("an accepted call works a piece");
    if from.next == r.start {
        let unbroken = rules::product(&layout, r.base, (r.start, next), values);
        assert_eq!(acc.fields(), unbroken.fields(), "the unbroken reduction gives another accumulator");
    }
    Ok(StepResult { to: Bookmark { next, acc }, pieces, done: next == r.end })
}
