//! The oracle: the Rust source itself, asked the calls of a case file.
//!
//! `oracle replay < cases > answers` answers each line of a case file.
//! `oracle generate KIND SEED COUNT` prints COUNT random case lines.
//!
//! The source's: `reduce_kernel.rs`, a copy that is the same to the byte.
//! Ours: this file and every other. `erased.rs` stands in for the file of the source that we lack, and is
//! written from the rules of the product engine; `inline.rs`, `simd.rs`, `complex.rs` and `error.rs` stand in for
//! the few other names that the copy imports. `subnormal.rs` answers in the source's place where a range visits a
//! subnormal number, which the source does not count.

extern crate self as num_complex;

mod cases;
mod complex;
mod erased;
mod error;
mod generate;
mod inline;
mod jobs;
mod ranges;
mod rules;
mod simd;
mod steps;
mod subnormal;
mod windows;
mod words;

pub use complex::{Complex32, Complex64};
pub use error::{Result, StridedError};

fn usage() -> ! {
    eprintln!("usage: oracle replay < cases, or oracle generate KIND SEED COUNT");
    std::process::exit(2);
}

fn main() {
    let args: Vec<String> = std::env::args().skip(1).collect();
    let words: Vec<&str> = args.iter().map(String::as_str).collect();
    let done = match words.as_slice() {
        ["replay"] => cases::replay(),
        ["generate", kind, seed, count] => match (generate::maker(kind), seed.parse(), count.parse()) {
            (Some(make), Ok(seed), Ok(count)) => generate::print(make, seed, count),
            _ => usage(),
        },
        _ => usage(),
    };
    if let Err(error) = done {
        eprintln!("oracle: {error}");
        std::process::exit(1);
    }
}
