//! Random calls to the engine and to the oracle, whose answers must be the same to the bit: the number of the
//! refusal, the accumulator, and every place of a buffer. The offsets of each range are listed and compared too, and
//! its ordered product, its figure and its first bad rate; then these for calls that are drawn for them. Jobs are read
//! and written. Steps of a few pieces are asked, by themselves and in callers' loops, and lists of ranges, whose answers
//! are joined and finished, and windows. Now and then comes a long piece, and a long slice for windows. At the end a host
//! with threads is asked.
//!
//! The oracle's accumulators are the Rust's where no subnormal is visited, and else those of its own rule; how often
//! each was asked is told.

use crate::erased::calls::Layout;
use crate::generate::reduce::Call;
use crate::generate::{first, ordered, Dice};
use crate::job;
use crate::long;
use crate::numbers;
use crate::probe::{self, Bits, Place};
use crate::range_answers;
use crate::rules;
use crate::searches;
use crate::sent_answers;
use crate::step_answers;
use crate::subnormal;
use crate::tally::Tally;
use crate::threads;
use crate::window_answers;
use std::collections::BTreeMap;

/// What an answer's place holds before a call.
const BEFORE: Place = Place { m: -0.1, e: i64::MIN, bad: 1 };

/// A piece of so many values at stride 1 has a block.
const BLOCK: u64 = 64;

/// After one call in so many come a long piece and a long slice.
const LONG: u64 = 100;

/// What is told apart in the counts.
#[derive(Clone, Copy, Eq, Ord, PartialEq, PartialOrd)]
enum Kind {
    Accepted { way: &'static str, several: bool, subnormal: bool, bad: bool },
    Refused(u32),
}

impl Kind {
    fn text(self) -> String {
        match self {
            Kind::Refused(code) => format!("refused {code}"),
            Kind::Accepted { way, several, subnormal, bad } => format!(
                "accumulator, {way}, {}{}{}",
                if several { "several pieces" } else { "one piece" },
                if subnormal { ", a subnormal" } else { "" },
                if bad { ", bad" } else { "" }
            ),
        }
    }
}

/// A call's answer: its code, and what its place or its buffer holds afterwards.
type Reduced = (u32, Bits);
type Listed = (u32, Vec<i64>);

/// How often each kind of answer was given.
#[derive(Default)]
struct Seen {
    kinds: BTreeMap<Kind, u64>,
    numbers: Tally,
    searches: Tally,
    jobs: Tally,
    steps: Tally,
    ranges: Tally,
    windows: Tally,
}

/// Whether all answers were the same.
pub fn run(count: u64, seed: u64) -> bool {
    let mut dice = Dice::new(seed);
    let mut seen = Seen::default();
    for number in 0..count {
        if let Err(difference) = seen.ask(&mut dice, number % LONG == 0) {
            println!("call {number} of seed {seed} differs: {difference}");
            return false;
        }
    }
    seen.print(count, seed);
    match threads::ask() {
        Ok(asked) => println!("{asked}: all answers are the same"),
        Err(difference) => {
            println!("the host with threads differs: {difference}");
            return false;
        }
    }
    true
}

impl Seen {
    fn print(&self, count: u64, seed: u64) {
        let longer = count.div_ceil(LONG);
        println!("{count} reductions of seed {seed}, the lists of their offsets, and {longer} long pieces:");
        println!("all answers are the same");
        for (kind, count) in &self.kinds {
            println!("{count:>9} {}", kind.text());
        }
        println!("their ordered products and their figures, and those of {count} calls that are drawn for them:");
        println!("all answers are the same, and each NaN is the one NaN");
        self.numbers.print();
        println!("their first bad rates, and those of {count} calls that are drawn for them: all answers are the same");
        self.searches.print();
        println!("{count} jobs that are read, and {count} that are written, beside the oracle's own reader and writer:");
        println!("all answers are the same");
        self.jobs.print();
        println!("{count} steps of a few pieces from a bookmark, and callers' loops of such steps from the start of a range:");
        println!("all answers are the same, and those of the loops are the unbroken reduction's");
        self.steps.print();
        println!("{count} lists of ranges, the joins of what they give, and the finished numbers: all answers are the same");
        self.ranges.print();
        println!("{count} slices with their windows, and {longer} long ones: all answers are the same");
        self.windows.print();
    }

    /// A call of each kind, and long ones if it is time for them. What differs is the error.
    fn ask(&mut self, dice: &mut Dice, long: bool) -> Result<(), String> {
        self.reduction(dice)?;
        self.numbers_alone(dice)?;
        self.search_alone(dice)?;
        sent_answers::ask(&mut self.jobs, dice)?;
        step_answers::ask(&mut self.steps, dice)?;
        range_answers::ask(&mut self.ranges, dice)?;
        window_answers::ask(&mut self.windows, dice)?;
        if long {
            long_piece(dice)?;
            window_answers::ask_long(&mut self.windows, dice)?;
        }
        Ok(())
    }

    /// A call, with all that is asked about its range.
    fn reduction(&mut self, dice: &mut Dice) -> Result<(), String> {
        let call = Call::drawn(dice);
        let values = call.floats();
        let (kind, expected) = oracle(&call, &values);
        let found = engine(&call, &values);
        if found != expected {
            return Err(format!("{}\nthe oracle gives {expected:x?}, the engine {found:x?}", call.text()));
        }
        let before = buffer(dice, &call);
        let (expected, found) = (oracle_list(&call, before.clone()), engine_list(&call, before));
        if found != expected {
            return Err(format!("the list of {}\nthe oracle gives {expected:?}, the engine {found:?}", call.text()));
        }
        *self.kinds.entry(kind).or_default() += 1;
        searches::ask(&mut self.searches, &call, &values)?;
        numbers::ask(&mut self.numbers, &call, &values)
    }

    /// A call whose values lead the ordered product to its limits. Its NaNs have any pattern, of which the engine's
    /// accumulator keeps nothing, so that is not compared.
    fn numbers_alone(&mut self, dice: &mut Dice) -> Result<(), String> {
        let call = ordered::drawn(dice);
        numbers::ask(&mut self.numbers, &call, &call.floats())
    }

    /// A call whose values lie on both sides of what many at a time are tested by.
    fn search_alone(&mut self, dice: &mut Dice) -> Result<(), String> {
        let call = first::drawn(dice);
        searches::ask(&mut self.searches, &call, &call.floats())
    }
}

fn long_piece(dice: &mut Dice) -> Result<(), String> {
    let job = long::drawn(dice);
    if let Some((base, expected, found)) = job.difference() {
        let answers = format!("the oracle gives {expected:x?}, the engine {found:x?}");
        return Err(format!("the long piece behind it, from {base}\n{answers}"));
    }
    match job.number_difference().or_else(|| job.search_difference()) {
        Some(difference) => Err(format!("the long piece behind it\n{difference}")),
        None => Ok(()),
    }
}

fn oracle(call: &Call, values: &[f64]) -> (Kind, Reduced) {
    match rules::range(&call.axes.sizes, &call.axes.strides, &call.range) {
        Err(code) => (Kind::Refused(code), (code, BEFORE.bits())),
        Ok(layout) => {
            let (base, range) = (call.range.base, (call.range.start, call.range.end));
            let acc = rules::product(&layout, base, range, values);
            let subnormal = subnormal::is_visited(&layout, base, range, values);
            (accepted(call, &layout, subnormal, acc.bad), (0, job::bits(acc)))
        }
    }
}

fn accepted(call: &Call, layout: &Layout, subnormal: bool, bad: bool) -> Kind {
    let (run, start, end) = (layout.run_len, call.range.start, call.range.end);
    let (first, last) = (start / run, (end - 1) / run);
    let longest = match last - first {
        0 => end - start,
        1 => (run - start % run).max((end - 1) % run + 1),
        _ => run,
    };
    let way = match layout.run_stride {
        1 if longest >= BLOCK => "stride 1 with blocks",
        1 => "stride 1, short",
        _ => "other strides",
    };
    Kind::Accepted { way, several: first != last, subnormal, bad }
}

fn engine(call: &Call, values: &[f64]) -> Reduced {
    let mut place = BEFORE;
    let code = probe::reduce_into(&probe::Range::of(call), values, &mut place);
    (code, place.bits())
}

/// As long as the range mostly, now and then one place shorter or longer.
fn buffer(dice: &mut Dice, call: &Call) -> Vec<i64> {
    let wanted = call.range.end.saturating_sub(call.range.start).min(1 << 13);
    let places = match dice.below(20) {
        0 => wanted.saturating_sub(1),
        1..=4 => wanted + 1,
        _ => wanted,
    };
    (0..places as i64).map(|place| -1 - place).collect()
}

fn oracle_list(call: &Call, mut buffer: Vec<i64>) -> Listed {
    let code = rules::list(&call.axes.sizes, &call.axes.strides, &call.range, &mut buffer);
    (code, buffer)
}

fn engine_list(call: &Call, mut buffer: Vec<i64>) -> Listed {
    let code = probe::list(&probe::Range::of(call), call.range.length, &mut buffer);
    (code, buffer)
}
