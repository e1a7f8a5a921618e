//! Buffers of accumulators: what they hold before a call, and what is read from them after it.

use crate::probe::{Bits, Place};
use crate::ranges::Buffers;
use crate::tally::Tally;

/// The code of a call, and what the buffers hold after it.
pub type Answer = (u32, Vec<u64>, Vec<i64>, Vec<u8>);

pub fn answer(code: u32, out: Buffers) -> Answer {
    (code, out.ms.iter().map(|m| m.to_bits()).collect(), out.es, out.bads)
}

/// So many places, which hold what no reduction gives.
pub fn unwritten(count: usize) -> Buffers {
    Buffers { ms: vec![f64::NAN; count], es: vec![i64::MIN; count], bads: vec![1; count] }
}

/// What stands in a place.
pub fn read(out: &Buffers, at: usize) -> Bits {
    Place { m: out.ms[at], e: out.es[at], bad: out.bads[at] }.bits()
}

/// The accumulators in the first places of an accepted call.
pub fn accs((_, ms, es, bads): Answer, count: usize) -> Vec<Place> {
    let fields = ms.into_iter().zip(es).zip(bads).take(count);
    fields.map(|((m, e), bad)| Place { m: f64::from_bits(m), e, bad }).collect()
}

/// How many accumulators of this name a call gave, and how many of them are bad.
pub fn count(tally: &mut Tally, name: &str, accs: &[Place]) {
    let marked = accs.iter().filter(|acc| acc.bad == 1).count();
    let length = match accs.len() {
        0 => format!("no {name}"),
        1 => format!("one {name}"),
        _ => format!("several {name}s"),
    };
    tally.count(length + ["", ", one bad", ", several bad"][marked.min(2)]);
}
