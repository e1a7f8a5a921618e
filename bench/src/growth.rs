//! Time against the number of values: a block of lines for each kind, with a blank line between two.

use crate::job::Job;
use crate::rates::Rates;
use crate::timing;
use std::time::Duration;

const LEAST: Duration = Duration::from_millis(200);
const MOST: u64 = 10_000_000;
const ROW: u64 = 16;
const GAP: u64 = 8;

/// Short calls take turns with bases that have so many values together, and with no more bases than this.
const TOGETHER: u64 = 1 << 17;
const TURNS: u64 = 1 << 14;

/// Draws the call of so many values.
type Maker = fn(u64) -> Job;

pub const KINDS: [(&str, Maker); 3] =
    [("contiguous", contiguous), ("stride 2", stride_two), ("rows of 16 with a gap", rows)];

/// Whether all answers were the same.
pub fn print() -> bool {
    println!("# nanoseconds a call, rates in {}", Rates::Keep.name());
    KINDS.iter().all(|&(name, make)| {
        println!("\n# {name}\n# n rust_ns engine_ns ratio");
        counts().into_iter().all(|count| print_line(count, &make(count)))
    })
}

fn print_line(count: u64, job: &Job) -> bool {
    if let Some((base, expected, found)) = job.difference() {
        println!("{count} values from {base}: the oracle gives {expected:x?}, the engine {found:x?}");
        return false;
    }
    let times = timing::measure(job, LEAST);
    println!("{count} {:.1} {:.1} {:.3}", times.rust, times.engine, times.engine / times.rust);
    true
}

/// 1, 2, 5, 10 and so on.
pub fn counts() -> Vec<u64> {
    let mut out = Vec::new();
    let mut power = 1;
    while power <= MOST {
        out.extend([power, 2 * power, 5 * power].into_iter().filter(|&count| count <= MOST));
        power *= 10;
    }
    out
}

fn turns(count: u64) -> u64 {
    (TOGETHER / count).clamp(1, TURNS)
}

fn contiguous(count: u64) -> Job {
    let turns = turns(count);
    let bases = (0..turns).map(|turn| (turn * count) as i64).collect();
    Job::new(&[(count, 1)], count, bases, Rates::Keep.draw((turns * count) as usize))
}

/// Two calls lie in one stretch of values, between each other, so that no more of the cache is taken than needed.
fn stride_two(count: u64) -> Job {
    let pairs = turns(count).div_ceil(2);
    let bases = (0..2 * pairs).map(|turn| (turn / 2 * 2 * count + turn % 2) as i64).collect();
    Job::new(&[(count, 2)], count, bases, Rates::Keep.draw((pairs * 2 * count) as usize))
}

/// At least two rows, so that the layout is always one of rows.
fn rows(count: u64) -> Job {
    let (rows, pitch) = (count.div_ceil(ROW).max(2), ROW + GAP);
    let turns = turns(rows * ROW);
    let bases = (0..turns).map(|turn| (turn * rows * pitch) as i64).collect();
    let values = Rates::Keep.draw((turns * rows * pitch) as usize);
    Job::new(&[(rows, pitch as i64), (ROW, 1)], count, bases, values)
}
