//! A reader and a writer of jobs for the engine's to be timed beside: plain Rust, written from the request alone, with
//! fixed tables, no heap and nothing unsafe.

use crate::jobs::{BASE, END, FINISH, MORE, PAYLOAD_BITS, SIZE, START, STRIDE, WORD_BYTES};
use crate::probe::{JobPlace, Range, PLACES};

const PAYLOADS: u64 = 1 << PAYLOAD_BITS;

const AXES_DIFFER: u32 = 1;
const TOO_MANY_AXES: u32 = 2;
const BAD_WORD: u32 = 11;
const NUMBER_TOO_LONG: u32 = 12;
const BUFFER_TOO_SHORT: u32 = 13;

fn sent(number: i64) -> u64 {
    (number << 1 ^ number >> 63) as u64
}

fn signed(sent: u64) -> i64 {
    (sent >> 1) as i64 ^ -((sent & 1) as i64)
}

/// The bytes that are left.
struct Words<'a>(&'a [u8]);

impl Words<'_> {
    /// The kind of the next word.
    fn kind(&self) -> Option<u32> {
        self.0.first_chunk().map(|bytes| u32::from_le_bytes(*bytes) >> PAYLOAD_BITS)
    }

    /// The payload of the next word, which is taken if it is of this kind.
    fn take(&mut self, kind: u32) -> Option<u64> {
        let (bytes, rest) = self.0.split_first_chunk()?;
        let word = u32::from_le_bytes(*bytes);
        if word >> PAYLOAD_BITS != kind {
            return None;
        }
        self.0 = rest;
        Some(u64::from(word) % PAYLOADS)
    }

    fn number(&mut self, kind: u32) -> Result<u64, u32> {
        let mut number = self.take(kind).ok_or(BAD_WORD)?;
        let mut shift = PAYLOAD_BITS;
        while let Some(payload) = self.take(MORE) {
            if shift >= u64::BITS || payload << shift >> shift != payload {
                return Err(NUMBER_TOO_LONG);
            }
            number |= payload << shift;
            shift += PAYLOAD_BITS;
        }
        Ok(number)
    }
}

pub fn read(bytes: &[u8]) -> Result<JobPlace, u32> {
    let mut words = Words(bytes);
    let (mut count, mut sizes, mut strides) = (0, [0; PLACES], [0; PLACES]);
    while words.kind() == Some(SIZE) {
        if count == PLACES {
            return Err(TOO_MANY_AXES);
        }
        sizes[count] = words.number(SIZE)?;
        strides[count] = signed(words.number(STRIDE)?);
        count += 1;
    }
    let base = signed(words.number(BASE)?);
    let start = words.number(START)?;
    let end = words.number(END)?;
    if words.take(FINISH) == Some(0) && words.0.is_empty() {
        Ok(JobPlace { count, sizes, strides, base, start, end })
    } else {
        Err(BAD_WORD)
    }
}

/// How many words a number takes.
fn words_of(number: u64) -> usize {
    if number < PAYLOADS {
        1
    } else if number < PAYLOADS * PAYLOADS {
        2
    } else {
        3
    }
}

fn words_in(job: &Range) -> usize {
    let sizes: usize = job.sizes.iter().map(|&size| words_of(size)).sum();
    let strides: usize = job.strides.iter().map(|&stride| words_of(sent(stride))).sum();
    sizes + strides + words_of(sent(job.base)) + words_of(job.start) + words_of(job.end) + 1
}

/// A buffer that is filled from the left.
struct Out<'a> {
    bytes: &'a mut [u8],
    at: usize,
}

impl Out<'_> {
    fn word(&mut self, kind: u32, payload: u64) {
        let word = kind << PAYLOAD_BITS | payload as u32;
        self.bytes[self.at..self.at + WORD_BYTES].copy_from_slice(&word.to_le_bytes());
        self.at += WORD_BYTES;
    }

    fn number(&mut self, kind: u32, number: u64) {
        self.word(kind, number % PAYLOADS);
        let mut rest = number / PAYLOADS;
        while rest > 0 {
            self.word(MORE, rest % PAYLOADS);
            rest /= PAYLOADS;
        }
    }
}

/// The job's length comes first: a buffer that is too short stays as it is.
pub fn write(job: &Range, out: &mut [u8]) -> Result<usize, u32> {
    if job.sizes.len() != job.strides.len() {
        return Err(AXES_DIFFER);
    }
    if job.sizes.len() > PLACES {
        return Err(TOO_MANY_AXES);
    }
    let count = WORD_BYTES * words_in(job);
    let mut out = Out { bytes: out.get_mut(..count).ok_or(BUFFER_TOO_SHORT)?, at: 0 };
    for (&size, &stride) in job.sizes.iter().zip(job.strides) {
        out.number(SIZE, size);
        out.number(STRIDE, sent(stride));
    }
    out.number(BASE, sent(job.base));
    out.number(START, job.start);
    out.number(END, job.end);
    out.word(FINISH, 0);
    Ok(count)
}
