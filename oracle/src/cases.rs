//! Ours: the lines of a case file and their answers.

use crate::erased::calls::{Acc, Layout};
use crate::generate::items_text;
use crate::jobs::{self, Job};
use crate::ranges::{self, Buffers, Ranges};
use crate::rules::{self, BadRate, Range};
use crate::steps::{self, Bookmark, StepResult};
use crate::windows;
use crate::words::Words;
use std::io::{Read, Result, Write};

const MOST_LINE: usize = 128 * 1024;
const MOST_AXES_GIVEN: u64 = 32;
const MOST_RANGES: u64 = 4096;
const MOST_VALUES: u64 = 4096;
const MOST_PLACES: u64 = 4096;
const MOST_BYTES: u64 = 4096;

pub fn replay() -> Result<()> {
    let mut input = Vec::new();
    std::io::stdin().lock().read_to_end(&mut input)?;
    let mut output = std::io::BufWriter::new(std::io::stdout().lock());
    for line in lines(&input) {
        let answer = answer(line).unwrap_or_else(|| String::from("malformed"));
        output.write_all(answer.as_bytes())?;
        output.write_all(b"\n")?;
    }
    output.flush()
}

/// A line ends at its newline or at the end of the input.
fn lines(input: &[u8]) -> impl Iterator<Item = &[u8]> {
    input
        .split_inclusive(|&byte| byte == b'\n')
        .map(|line| line.strip_suffix(b"\n").unwrap_or(line))
}

fn answer(line: &[u8]) -> Option<String> {
    if line.len() > MOST_LINE {
        return None;
    }
    let mut words = Words::new(line);
    match words.word()? {
        b"compile" => compile(words),
        b"list" => list(words),
        b"reduce" => Some(acc_text(over_range(words, rules::reduce)?)),
        b"product" => Some(number_text(rules::finish(over_range(words, rules::reduce)?))),
        b"ordered" => Some(number_text(over_range(words, rules::ordered)?)),
        b"figure" => Some(number_text(over_range(words, rules::figure)?)),
        b"first" => Some(first_text(over_range(words, rules::first_bad_rate)?)),
        b"step" => step(words),
        b"ranges" => reduce_ranges(words),
        b"windows" => reduce_windows(words),
        b"join" => join(words),
        b"finish" => finish(words),
        b"read" => read_job(words),
        b"write" => write_job(words),
        _ => None,
    }
}

fn axes(words: &mut Words) -> Option<(Vec<u64>, Vec<i64>)> {
    let sizes = words.list(MOST_AXES_GIVEN, Words::u64)?;
    let strides = words.list(MOST_AXES_GIVEN, Words::i64)?;
    Some((sizes, strides))
}

fn compile(mut words: Words) -> Option<String> {
    let (sizes, strides) = axes(&mut words)?;
    words.end()?;
    Some(match rules::compile(&sizes, &strides) {
        Ok(layout) => layout_text(&layout),
        Err(code) => compile_text(code, (0, 0, 1), &[]),
    })
}

fn layout_text(layout: &Layout) -> String {
    compile_text(0, (layout.total, layout.run_len, layout.run_stride), &layout.axes)
}

fn compile_text(code: u32, run: (u64, u64, i64), axes: &[(u64, i64, i64)]) -> String {
    let (total, len, stride) = run;
    let mut text = format!("compile {code} {total} {len} {stride} {}", axes.len());
    for place in 0..rules::MOST_AXES {
        let (size, step, reset) = axes.get(place).copied().unwrap_or((0, 0, 0));
        text += &format!(" {size} {step} {reset}");
    }
    text
}

fn list(mut words: Words) -> Option<String> {
    let (sizes, strides) = axes(&mut words)?;
    let base = words.i64()?;
    let (start, end, length) = (words.u64()?, words.u64()?, words.u64()?);
    let mut buffer = words.list(MOST_PLACES, Words::i64)?;
    words.end()?;
    let range = Range { base, start, end, length };
    let code = rules::list(&sizes, &strides, &range, &mut buffer);
    Some(format!("list {code}{}", items_text(&buffer)))
}

/// A base, a range and its values.
fn range_and_values(words: &mut Words) -> Option<(Range, Vec<f64>)> {
    let base = words.i64()?;
    let (start, end) = (words.u64()?, words.u64()?);
    let values = words.list(MOST_VALUES, Words::f64)?;
    Some((Range { base, start, end, length: values.len() as u64 }, values))
}

/// What a call over a range with its values gives.
fn over_range<T>(mut words: Words, call: fn(&[u64], &[i64], &Range, &[f64]) -> T) -> Option<T> {
    let (sizes, strides) = axes(&mut words)?;
    let (range, values) = range_and_values(&mut words)?;
    words.end()?;
    Some(call(&sizes, &strides, &range, &values))
}

fn step(mut words: Words) -> Option<String> {
    let (sizes, strides) = axes(&mut words)?;
    let (range, values) = range_and_values(&mut words)?;
    let from = Bookmark { next: words.u64()?, acc: acc(&mut words)? };
    let most = words.u64()?;
    words.end()?;
    Some(step_text(steps::step(&sizes, &strides, &range, &values, &from, most)))
}

fn buffers(words: &mut Words) -> Option<Buffers> {
    Some(Buffers {
        ms: words.list(MOST_PLACES, Words::f64)?,
        es: words.list(MOST_PLACES, Words::i64)?,
        bads: words.list(MOST_PLACES, Words::byte)?,
    })
}

fn reduce_ranges(mut words: Words) -> Option<String> {
    let (sizes, strides) = axes(&mut words)?;
    let base = words.i64()?;
    let starts = words.list(MOST_RANGES, Words::u64)?;
    let ends = words.list(MOST_RANGES, Words::u64)?;
    let values = words.list(MOST_VALUES, Words::f64)?;
    let mut out = buffers(&mut words)?;
    words.end()?;
    let code = ranges::reduce_ranges(&sizes, &strides, base, &Ranges { starts, ends }, &values, &mut out);
    Some(format!("ranges {code}{}", out.text()))
}

fn reduce_windows(mut words: Words) -> Option<String> {
    let values = words.list(MOST_VALUES, Words::f64)?;
    let w = words.u64()?;
    let mut out = buffers(&mut words)?;
    words.end()?;
    let code = windows::reduce_windows(&values, w, &mut out);
    Some(format!("windows {code}{}", out.text()))
}

fn acc(words: &mut Words) -> Option<Acc> {
    Some(Acc { m: words.f64()?, e: words.i64()?, bad: words.bit()? })
}

fn join(mut words: Words) -> Option<String> {
    let left = acc(&mut words)?;
    let right = acc(&mut words)?;
    words.end()?;
    Some(acc_text(rules::join(left, right)))
}

fn finish(mut words: Words) -> Option<String> {
    let answer = match words.word()? {
        b"acc" => Ok(acc(&mut words)?),
        b"refused" => Err(words.u32()?),
        _ => return None,
    };
    words.end()?;
    Some(number_text(rules::finish(answer)))
}

fn acc_words(acc: Acc) -> String {
    format!("{:016x} {} {}", acc.m.to_bits(), acc.e, u32::from(acc.bad))
}

fn acc_text(answer: std::result::Result<Acc, u32>) -> String {
    match answer {
        Ok(acc) => format!("acc {}", acc_words(acc)),
        Err(code) => format!("refused {code}"),
    }
}

fn step_text(answer: std::result::Result<StepResult, u32>) -> String {
    match answer {
        Ok(StepResult { to, pieces, done: true }) => format!("done {} {pieces}", acc_words(to.acc)),
        Ok(StepResult { to, pieces, done: false }) => format!("more {} {} {pieces}", to.next, acc_words(to.acc)),
        Err(code) => format!("refused {code}"),
    }
}

fn number_text(answer: std::result::Result<f64, u32>) -> String {
    match answer {
        Ok(number) => format!("number {:016x}", number.to_bits()),
        Err(code) => format!("refused {code}"),
    }
}

fn first_text(answer: std::result::Result<Option<BadRate>, u32>) -> String {
    match answer {
        Ok(Some(bad)) => format!("bad {} {}", bad.element, bad.offset),
        Ok(None) => String::from("none"),
        Err(code) => format!("refused {code}"),
    }
}

fn read_job(mut words: Words) -> Option<String> {
    let bytes = words.list(MOST_BYTES, Words::byte)?;
    words.end()?;
    Some(match jobs::read(&bytes) {
        Ok(job) => job_text(0, &job),
        Err(code) => job_text(code, &Job::default()),
    })
}

fn job_text(code: u32, job: &Job) -> String {
    let mut text = format!("job {code} {}", job.sizes.len());
    for place in 0..rules::MOST_AXES {
        text += &format!(" {}", job.sizes.get(place).unwrap_or(&0));
    }
    for place in 0..rules::MOST_AXES {
        text += &format!(" {}", job.strides.get(place).unwrap_or(&0));
    }
    text + &format!(" {} {} {}", job.base, job.start, job.end)
}

fn write_job(mut words: Words) -> Option<String> {
    let (sizes, strides) = axes(&mut words)?;
    let base = words.i64()?;
    let (start, end) = (words.u64()?, words.u64()?);
    let mut buffer = words.list(MOST_BYTES, Words::byte)?;
    words.end()?;
    let (code, count) = match jobs::write(&Job { sizes, strides, base, start, end }, &mut buffer) {
        Ok(count) => (0, count),
        Err(code) => (code, 0),
    };
    Some(format!("write {code} {count}{}", items_text(&buffer)))
}
