//! A call that is timed, for the engine and for the Rust.
//!
//! Timed of the Rust: the source's own `FullTraversal::compile` and `reduce_full_range` with
//! `StableProductKernel` or `OrderedProductKernel` on f64, and nothing else. The refusals that the engine adds are no
//! part of the source: `Job::new` asks them once, before the timing, and there puts the axes into the form in which the
//! source takes them in the engine's order. Timed of the engine: the whole call, with all its checks.
//!
//! What the engine answers is held against the oracle (`rules::product` and the calls above it).

use crate::erased::calls::{Acc, Answer, Layout, Plan};
use crate::probe::{self, BadPlace, Bits, Numbered, Place, Places, Reduced, StepPlace};
use crate::rules;
use crate::searches;
use crate::window_probe;
use std::hint::black_box;

pub struct Job {
    sizes: Vec<u64>,
    strides: Vec<i64>,
    /// The sizes and the strides for the Rust.
    dims: Vec<usize>,
    steps: Vec<isize>,
    layout: Layout,
    count: u64,
    bases: Vec<i64>,
    pub values: Vec<f64>,
}

pub fn bits(acc: Acc) -> Bits {
    [acc.m.to_bits(), acc.e as u64, u64::from(acc.bad)]
}

impl Job {
    /// A call on the first `count` elements of a layout. The calls take turns with the bases, so that a short one
    /// does not meet the same values each time: of a hundred thousand values and fewer that come again and again,
    /// the processor learns which lanes are halved, and the Rust then is up to three times as fast at strides.
    pub fn new(axes: &[(u64, i64)], count: u64, bases: Vec<i64>, values: Vec<f64>) -> Job {
        let sizes: Vec<u64> = axes.iter().map(|axis| axis.0).collect();
        let strides: Vec<i64> = axes.iter().map(|axis| axis.1).collect();
        let layout = rules::compile(&sizes, &strides).expect("a timed layout compiles");
        let length = values.len() as u64;
        let inside = |&base| rules::inside(&layout, &sizes, &strides, base, length).is_ok();
        assert!(rules::within(layout.total, 0, count).is_ok() && bases.iter().all(inside), "a timed call is accepted");
        let (dims, steps) = rules::forward_first(&sizes, &strides);
        let dims = dims.into_iter().map(|size| size as usize).collect();
        let steps = steps.into_iter().map(|stride| stride as isize).collect();
        Job { sizes, strides, dims, steps, layout, count, bases, values }
    }

    pub fn count(&self) -> u64 {
        self.count
    }

    /// The number of bases.
    pub fn turns(&self) -> usize {
        self.bases.len()
    }

    pub fn plan(&self) -> Plan {
        Plan::compile(black_box(&self.dims), black_box(&self.steps)).expect("a timed layout compiles")
    }

    /// The Rust with a plan that is compiled already.
    #[inline(never)]
    pub fn rust_ahead(&self, plan: &Plan, turn: usize) -> Answer {
        let base = black_box(self.bases[turn]) as isize;
        black_box(plan).product(base, 0..black_box(self.count) as usize, black_box(&self.values))
    }

    #[inline(never)]
    pub fn rust(&self, turn: usize) -> Answer {
        let base = black_box(self.bases[turn]) as isize;
        self.plan().product(base, 0..black_box(self.count) as usize, black_box(&self.values))
    }

    #[inline(never)]
    pub fn rust_ordered_ahead(&self, plan: &Plan, turn: usize) -> f64 {
        let base = black_box(self.bases[turn]) as isize;
        black_box(plan).ordered(base, 0..black_box(self.count) as usize, black_box(&self.values))
    }

    #[inline(never)]
    pub fn rust_ordered(&self, turn: usize) -> f64 {
        let base = black_box(self.bases[turn]) as isize;
        self.plan().ordered(base, 0..black_box(self.count) as usize, black_box(&self.values))
    }

    /// The finished product, or the ordered one where a rate is bad, with the plan compiled once.
    #[inline(never)]
    pub fn rust_figure(&self, turn: usize) -> f64 {
        let base = black_box(self.bases[turn]) as isize;
        self.plan().figure(base, 0..black_box(self.count) as usize, black_box(&self.values))
    }

    /// The whole range by calls of at most `n` pieces: each compiles the layout, and joins its pieces one by one.
    #[inline(never)]
    pub fn rust_by_steps(&self, turn: usize, n: u64) -> Answer {
        let base = black_box(self.bases[turn]) as isize;
        let (end, run_len, n) = (black_box(self.count), black_box(self.layout.run_len), black_box(n));
        let mut acc: Option<Answer> = None;
        let mut next = 0;
        while next < end {
            let plan = self.plan();
            let mut pieces = 0;
            while next < end && pieces < n {
                let past = ((next / run_len + 1) * run_len).min(end);
                let piece = plan.product(base, next as usize..past as usize, black_box(&self.values));
                acc = Some(acc.map_or(piece, |left| left.then(piece)));
                next = past;
                pieces += 1;
            }
        }
        acc.expect("a timed call has a piece")
    }

    /// A range of the layout, from the first base.
    #[inline(never)]
    pub fn rust_part(&self, start: u64, end: u64) -> Answer {
        let base = black_box(self.bases[0]) as isize;
        self.plan().product(base, black_box(start) as usize..black_box(end) as usize, black_box(&self.values))
    }

    #[inline]
    fn range(&self, turn: usize) -> probe::Range<'_> {
        probe::Range {
            sizes: black_box(&self.sizes),
            strides: black_box(&self.strides),
            base: black_box(self.bases[turn]),
            start: 0,
            end: black_box(self.count),
        }
    }

    #[inline(never)]
    pub fn engine(&self, turn: usize) -> Reduced {
        probe::reduce(&self.range(turn), black_box(&self.values))
    }

    #[inline(never)]
    pub fn ordered(&self, turn: usize) -> Numbered {
        probe::ordered(&self.range(turn), black_box(&self.values))
    }

    #[inline(never)]
    pub fn figure(&self, turn: usize) -> Numbered {
        probe::figure(&self.range(turn), black_box(&self.values))
    }

    #[inline(never)]
    pub fn first(&self, turn: usize) -> (u32, BadPlace) {
        let mut place = searches::BEFORE;
        let code = probe::first_into(&self.range(turn), black_box(&self.values), &mut place);
        (code, place)
    }

    /// A call of at most `n` pieces.
    #[inline(never)]
    pub fn step(&self, turn: usize, n: u64, place: &mut StepPlace) -> u32 {
        probe::step_into(&self.range(turn), black_box(&self.values), black_box(n), place)
    }

    /// The whole range by such calls, each from the bookmark of the one before.
    #[inline(never)]
    pub fn by_steps(&self, turn: usize, n: u64) -> Reduced {
        probe::by_steps(&self.range(turn), black_box(&self.values), black_box(n)).0
    }

    /// A range of the layout, from the first base.
    #[inline(never)]
    pub fn part(&self, start: u64, end: u64, place: &mut Place) -> u32 {
        let range = probe::Range { start: black_box(start), end: black_box(end), ..self.range(0) };
        probe::reduce_into(&range, black_box(&self.values), place)
    }

    /// A list of such ranges in one call.
    #[inline(never)]
    pub fn parts(&self, starts: &[u64], ends: &[u64], places: &mut Places) -> u32 {
        let probe::Range { sizes, strides, base, .. } = self.range(0);
        let ranges = probe::Ranges { sizes, strides, base, starts: black_box(starts), ends: black_box(ends) };
        probe::ranges_into(&ranges, black_box(&self.values), places)
    }

    /// Each `count` values in a row, wherever the bases lie.
    #[inline(never)]
    pub fn windows(&self, places: &mut Places) -> u32 {
        window_probe::windows_into(black_box(&self.values), black_box(self.count), places)
    }

    /// The oracle's accumulator.
    pub fn expected(&self, turn: usize) -> Bits {
        bits(rules::product(&self.layout, self.bases[turn], (0, self.count), &self.values))
    }

    /// The oracle's accumulator of a range of the layout, from the first base.
    pub fn expected_part(&self, start: u64, end: u64) -> Bits {
        bits(rules::product(&self.layout, self.bases[0], (start, end), &self.values))
    }

    /// The whole of a turn, for the oracle.
    fn asked(&self, turn: usize) -> rules::Range {
        rules::Range { base: self.bases[turn], start: 0, end: self.count, length: self.values.len() as u64 }
    }

    /// The first base at which the two answers differ, with them.
    pub fn difference(&self) -> Option<(i64, Bits, Reduced)> {
        (0..self.turns()).find_map(|turn| {
            let (expected, found) = (self.expected(turn), self.engine(turn));
            (found != Ok(expected)).then_some((self.bases[turn], expected, found))
        })
    }

    /// The first number of the engine that is not the oracle's: the ordered product or the figure, from each base.
    pub fn number_difference(&self) -> Option<String> {
        (0..self.turns()).find_map(|turn| {
            let range = self.asked(turn);
            let ordered = rules::ordered(&self.sizes, &self.strides, &range, &self.values);
            let figure = rules::figure(&self.sizes, &self.strides, &range, &self.values);
            let pairs = [("ordered product", ordered, self.ordered(turn)), ("figure", figure, self.figure(turn))];
            pairs.into_iter().find_map(|(name, number, found)| {
                let expected = number.map(f64::to_bits);
                let base = range.base;
                (found != expected).then(|| {
                    format!("the {name} from {base} differs: the oracle gives {expected:x?}, the engine {found:x?}")
                })
            })
        })
    }

    /// The first base from which the engine finds another first bad rate than the Rust's own loop meets.
    pub fn search_difference(&self) -> Option<String> {
        (0..self.turns()).find_map(|turn| {
            let range = self.asked(turn);
            let expected = searches::expected(&self.sizes, &self.strides, &range, &self.values);
            let (base, found) = (range.base, self.first(turn));
            (found != expected).then(|| {
                format!("the first bad rate from {base} differs: the oracle gives {expected:?}, the engine {found:?}")
            })
        })
    }
}
