//! Nanoseconds a window: against w over one slice, and against the number of windows of one w. A block of lines for each,
//! with a blank line between the two.

use crate::moving;
use crate::rates::Rates;
use std::time::Duration;

const LEAST: Duration = Duration::from_millis(200);
const KEEP: Rates = Rates::Keep;

/// The length of the slice where w grows, and w is up to 2 to this power.
const COUNT: usize = 100_000;
const MOST_POWER: u32 = 12;

/// The width where the number of windows grows.
const WIDTH: usize = 30;

/// Whether all answers were the same.
pub fn print() -> bool {
    println!("# nanoseconds a window, rates in {}", KEEP.name());
    println!("\n# 1e5 values\n# w rust_ns calls_ns windows_ns");
    let by_width = (0..=MOST_POWER).map(|power| 1 << power).all(|w| print_line(w, w, COUNT));
    if !by_width {
        return false;
    }
    println!("\n# w = {WIDTH}\n# windows rust_ns calls_ns windows_ns");
    (2..=6).map(|power| 10usize.pow(power)).all(|count| print_line(count, WIDTH, count + WIDTH - 1))
}

/// What grows, and the times of the windows of `w` over so many values.
fn print_line(grown: usize, w: usize, length: usize) -> bool {
    let job = moving::job(w, KEEP.draw(length));
    if let Some(difference) = moving::difference(&job) {
        println!("w = {w} over {length} values: {difference}");
        return false;
    }
    let [rust, calls, windows] = moving::times(&job, LEAST).map(|time| time / job.turns() as f64);
    println!("{grown} {rust:.2} {calls:.2} {windows:.2}");
    true
}
