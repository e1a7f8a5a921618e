//! Ours: a layout sent as words, read and written as the request for it says. The source has nothing of it.
//!
//! A word has 32 bits: three of its kind, and 29 of its payload below them. The reader is a machine that is fed one
//! word after the other and looks at nothing but the last number. Numbers are held in 128 bits as they are sent, so
//! that one past 64 bits is seen as it is.

use crate::rules::MOST_AXES;

pub const MORE: u32 = 0;
pub const SIZE: u32 = 1;
pub const STRIDE: u32 = 2;
pub const BASE: u32 = 3;
pub const START: u32 = 4;
pub const END: u32 = 5;
pub const FINISH: u32 = 6;

pub const PAYLOAD_BITS: u32 = 29;
pub const WORD_BYTES: usize = 4;
const MOST_MORE: u32 = 2;

/// The kinds of words that may stand behind a number of each kind, besides more of it. Place 0 is the job's beginning.
pub const NEXT: [&[u32]; 7] = [&[SIZE, BASE], &[STRIDE], &[SIZE, BASE], &[START], &[END], &[FINISH], &[]];

/// In a job that is to be written, sizes and strides may differ in number.
#[derive(Clone, Debug, Default, PartialEq)]
pub struct Job {
    pub sizes: Vec<u64>,
    pub strides: Vec<i64>,
    pub base: i64,
    pub start: u64,
    pub end: u64,
}

pub fn word(kind: u32, payload: u32) -> u32 {
    kind << PAYLOAD_BITS | payload
}

pub fn kind_of(word: u32) -> u32 {
    word >> PAYLOAD_BITS
}

pub fn payload_of(word: u32) -> u32 {
    word & ((1 << PAYLOAD_BITS) - 1)
}

fn sent(number: i64) -> u128 {
    let number = i128::from(number);
    (if number >= 0 { 2 * number } else { -2 * number - 1 }) as u128
}

/// The number of which `sent` gives this one.
pub fn signed(sent: u128) -> i64 {
    let half = (sent / 2) as i64;
    if sent % 2 == 0 {
        half
    } else {
        -1 - half
    }
}

/// What was read so far: the kind of the last number, or of finish, how many words of kind 0 it has, and each number
/// as it was sent, with its kind.
#[derive(Default)]
struct Machine {
    last: u32,
    more: u32,
    sent: Vec<(u32, u128)>,
}

impl Machine {
    fn of_kind(&self, kind: u32) -> impl Iterator<Item = u128> + '_ {
        self.sent.iter().filter(move |number| number.0 == kind).map(|number| number.1)
    }

    fn last_with(&self, payload: u32) -> u128 {
        let number = self.sent.last().map_or(0, |number| number.1);
        number + (u128::from(payload) << (PAYLOAD_BITS * (self.more + 1)))
    }

    /// The refusal of a word in this place, or 0.
    fn fault(&self, kind: u32, payload: u32) -> u32 {
        let behind_number = (SIZE..=END).contains(&self.last);
        if kind == MORE && behind_number {
            let fits = self.more < MOST_MORE && self.last_with(payload) <= u128::from(u64::MAX);
            return if fits { 0 } else { 12 };
        }
        if !NEXT[self.last as usize].contains(&kind) || (kind == FINISH && payload != 0) {
            return 11;
        }
        if kind == SIZE && self.of_kind(SIZE).count() == MOST_AXES {
            return 2;
        }
        0
    }

    /// Takes a word that has no fault.
    fn take(&mut self, kind: u32, payload: u32) {
        if kind == MORE {
            let number = self.last_with(payload);
            self.more += 1;
            self.sent.pop();
            self.sent.push((self.last, number));
        } else {
            self.last = kind;
            self.more = 0;
            self.sent.push((kind, u128::from(payload)));
        }
    }

    fn one(&self, kind: u32) -> u128 {
        self.of_kind(kind).next().expect("a finished job has base, start and end")
    }

    /// Of a finished machine.
    fn job(&self) -> Job {
        Job {
            sizes: self.of_kind(SIZE).map(|size| size as u64).collect(),
            strides: self.of_kind(STRIDE).map(signed).collect(),
            base: signed(self.one(BASE)),
            start: self.one(START) as u64,
            end: self.one(END) as u64,
        }
    }
}

/// Refusals 11, 12 and 2, by the first word that has a fault. A job that no finish ends lacks a word.
pub fn read(bytes: &[u8]) -> Result<Job, u32> {
    let mut machine = Machine::default();
    for part in bytes.chunks(WORD_BYTES) {
        let word = u32::from_le_bytes(part.try_into().map_err(|_| 11u32)?);
        match machine.fault(kind_of(word), payload_of(word)) {
            0 => machine.take(kind_of(word), payload_of(word)),
            code => return Err(code),
        }
    }
    if machine.last == FINISH {
        Ok(machine.job())
    } else {
        Err(11)
    }
}

/// The fewest words of a number.
fn number_words(kind: u32, number: u128) -> Vec<u32> {
    let mut words = vec![word(kind, payload_of(number as u32))];
    let mut rest = number >> PAYLOAD_BITS;
    while rest > 0 {
        words.push(word(MORE, payload_of(rest as u32)));
        rest >>= PAYLOAD_BITS;
    }
    words
}

/// The words of a job of any number of axes.
pub fn words(job: &Job) -> Vec<u32> {
    let mut numbers = Vec::new();
    for (&size, &stride) in job.sizes.iter().zip(&job.strides) {
        numbers.push((SIZE, u128::from(size)));
        numbers.push((STRIDE, sent(stride)));
    }
    numbers.push((BASE, sent(job.base)));
    numbers.push((START, u128::from(job.start)));
    numbers.push((END, u128::from(job.end)));
    numbers.push((FINISH, 0));
    numbers.iter().flat_map(|&(kind, number)| number_words(kind, number)).collect()
}

pub fn bytes_of(words: &[u32]) -> Vec<u8> {
    words.iter().flat_map(|word| word.to_le_bytes()).collect()
}

/// Refusals 1, 2, 13, or how many bytes were written, which must read as the same job.
pub fn write(job: &Job, buffer: &mut [u8]) -> Result<usize, u32> {
    if job.sizes.len() != job.strides.len() {
        return Err(1);
    }
    if job.sizes.len() > MOST_AXES {
        return Err(2);
    }
    let bytes = bytes_of(&words(job));
    let place = buffer.get_mut(..bytes.len()).ok_or(13u32)?;
    place.copy_from_slice(&bytes);
    assert_eq!(read(&bytes).as_ref(), Ok(job), "a written job is read as another");
    Ok(bytes.len())
}
