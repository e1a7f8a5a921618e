//! The benchmark: the engine, linked from its static libraries, and the Rust source, in one process.
//!
//! `bench table` prints a row for each kind of call, `bench rare` a row for those seldom met, `bench figures` the calls
//! that hand out a number, `bench search` the search for the first bad rate, `bench jobs` reading and writing jobs,
//! `bench steps` the reduction a few pieces at a time, `bench ranges` a list of ranges in one call, `bench windows` each w
//! values in a row, `bench threads` a host with threads, `bench growth` the time against the number of values, `bench
//! window-growth` that of windows against w and against their number, `bench check` the cases that take longer than the
//! Rust, or than aimed at, `bench compare COUNT SEED` the answers to random calls, by kind. Each ends with 1 if two answers
//! differ, and `bench check` if a case takes longer.
//!
//! The Rust is the oracle's, included by its path, so that nothing is copied and both see the same source. Answers are
//! held against the oracle's, which are the Rust's unless a subnormal is visited: that the Rust marks as bad. It is
//! timed on such values all the same.

extern crate self as num_complex;

#[allow(dead_code)]
#[path = "../../oracle/src"]
mod oracle {
    pub mod complex;
    pub mod erased;
    pub mod error;
    pub mod generate;
    pub mod inline;
    pub mod jobs;
    pub mod ranges;
    pub mod rules;
    pub mod simd;
    pub mod steps;
    pub mod subnormal;
    pub mod windows;
}

mod beside;
mod check;
mod compare;
mod figures;
mod growth;
mod job;
mod long;
mod moving;
mod numbers;
mod places;
mod plain;
mod probe;
mod range_answers;
mod rare;
mod rates;
mod search;
mod searches;
mod sent;
mod sent_answers;
mod step_answers;
mod stepping;
mod table;
mod tally;
mod threads;
mod timing;
mod window_answers;
mod window_growth;
mod window_probe;
mod workers;

// The oracle's files name each other from the root of the crate.
pub use oracle::complex::{Complex32, Complex64};
pub use oracle::error::{Result, StridedError};
use oracle::{erased, generate, inline, jobs, ranges, rules, simd, steps, subnormal, windows};

fn usage() -> ! {
    eprintln!(
        "usage: bench table | rare | figures | search | jobs | steps | ranges | windows | threads | growth | \
         window-growth | check, or bench compare COUNT SEED"
    );
    std::process::exit(2);
}

fn main() {
    let args: Vec<String> = std::env::args().skip(1).collect();
    let words: Vec<&str> = args.iter().map(String::as_str).collect();
    let same = match words.as_slice() {
        ["table"] => table::print(),
        ["rare"] => rare::print(),
        ["figures"] => beside::print(&figures::TABLES),
        ["search"] => beside::print(&search::TABLES),
        ["jobs"] => sent::print(),
        ["steps"] => stepping::print(),
        ["ranges"] => beside::print(&workers::TABLES),
        ["windows"] => beside::print(&moving::TABLES),
        ["threads"] => threads::print(),
        ["growth"] => growth::print(),
        ["window-growth"] => window_growth::print(),
        ["check"] => check::print(),
        ["compare", count, seed] => match (count.parse(), seed.parse()) {
            (Ok(count), Ok(seed)) => compare::run(count, seed),
            _ => usage(),
        },
        _ => usage(),
    };
    if !same {
        std::process::exit(1);
    }
}
