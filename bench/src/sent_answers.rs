//! Jobs sent as words, asked of the engine and of the oracle's own reader and writer: the code, every field of the
//! record, the count, and every byte of the buffer. The plain Rust that is timed is asked the same.

use crate::generate::{jobs as drawn, Dice};
use crate::jobs::{self, Job};
use crate::plain;
use crate::probe::{self, JobPlace, Range, PLACES};
use crate::tally::Tally;

/// What the places hold before a call.
pub const BEFORE: JobPlace =
    JobPlace { count: 77, sizes: [u64::MAX; PLACES], strides: [i64::MIN; PLACES], base: -7, start: 8, end: 9 };
const COUNT_BEFORE: usize = usize::MAX;

/// The code, and what the places hold after the call.
type Read = (u32, JobPlace);
/// The code, the count and the buffer after the call.
type Written = (u32, usize, Vec<u8>);

pub fn range_of(job: &Job) -> Range<'_> {
    Range { sizes: &job.sizes, strides: &job.strides, base: job.base, start: job.start, end: job.end }
}

/// The record of a job, with zeros behind its axes.
fn place_of(job: &Job) -> JobPlace {
    let axes = job.sizes.len();
    let mut place = JobPlace { count: axes, base: job.base, start: job.start, end: job.end, ..JobPlace::default() };
    place.sizes[..axes].copy_from_slice(&job.sizes);
    place.strides[..axes].copy_from_slice(&job.strides);
    place
}

fn engine_read(bytes: &[u8]) -> Read {
    let mut place = BEFORE;
    (probe::read_into(bytes, &mut place), place)
}

fn read(answer: Result<JobPlace, u32>) -> Read {
    match answer {
        Ok(place) => (0, place),
        Err(code) => (code, BEFORE),
    }
}

fn engine_write(job: &Job, mut buffer: Vec<u8>) -> Written {
    let mut count = COUNT_BEFORE;
    let code = probe::write_into(&range_of(job), &mut buffer, &mut count);
    (code, count, buffer)
}

fn written(mut buffer: Vec<u8>, write: impl FnOnce(&mut [u8]) -> Result<usize, u32>) -> Written {
    match write(&mut buffer) {
        Ok(count) => (0, count, buffer),
        Err(code) => (code, COUNT_BEFORE, buffer),
    }
}

/// The answer, if both others are the same.
fn same<T: PartialEq + std::fmt::Debug>(oracle: T, engine: T, rust: T) -> Result<T, String> {
    if engine != oracle || rust != oracle {
        return Err(format!("the oracle gives {oracle:?}, the engine {engine:?}, the plain Rust {rust:?}"));
    }
    Ok(oracle)
}

/// What differs is the error.
pub fn same_read(bytes: &[u8]) -> Result<Read, String> {
    let expected = read(jobs::read(bytes).map(|job| place_of(&job)));
    same(expected, engine_read(bytes), read(plain::read(bytes)))
        .map_err(|difference| format!("reading {bytes:?}\n{difference}"))
}

/// What differs is the error.
pub fn same_written(job: &Job, buffer: Vec<u8>) -> Result<Written, String> {
    let expected = written(buffer.clone(), |out| jobs::write(job, out));
    let rust = written(buffer.clone(), |out| plain::write(&range_of(job), out));
    same(expected, engine_write(job, buffer), rust).map_err(|difference| format!("writing {job:?}\n{difference}"))
}

/// A job that is read, and one that is written. What differs is the error.
pub fn ask(tally: &mut Tally, dice: &mut Dice) -> Result<(), String> {
    let bytes = drawn::to_read(dice);
    tally.count(match same_read(&bytes)? {
        (0, place) if bytes == fewest(&place) => String::from("read, in the fewest words"),
        (0, _) => String::from("read, with needless words"),
        (code, _) => format!("reading refused {code}"),
    });
    let (job, buffer) = drawn::to_write(dice);
    let room = buffer.len();
    tally.count(match same_written(&job, buffer)? {
        (0, count, _) if count == room => String::from("written, the buffer is full"),
        (0, _, _) => String::from("written, with room left"),
        (code, _, _) => format!("writing refused {code}"),
    });
    Ok(())
}

/// The bytes of a job as it is written.
fn fewest(place: &JobPlace) -> Vec<u8> {
    let (sizes, strides) = (place.sizes[..place.count].to_vec(), place.strides[..place.count].to_vec());
    jobs::bytes_of(&jobs::words(&Job { sizes, strides, base: place.base, start: place.start, end: place.end }))
}
