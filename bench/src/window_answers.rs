//! Windows, asked of the engine and of the oracle: the code, and every place of the three buffers, written or not. Those
//! that are drawn for the case format, and longer ones, whose rates change from stretch to stretch.

use crate::generate::{self, windows as drawn, Dice};
use crate::long;
use crate::places::{self, answer, unwritten, Answer};
use crate::probe::Places;
use crate::ranges::Buffers;
use crate::tally::Tally;
use crate::window_probe;
use crate::windows;

/// The most windows of a long slice.
const MOST_WINDOWS: u64 = 1000;

fn expected(values: &[f64], w: u64, mut out: Buffers) -> Answer {
    let code = windows::reduce_windows(values, w, &mut out);
    answer(code, out)
}

fn engine(values: &[f64], w: u64, mut out: Buffers) -> Answer {
    let code = window_probe::windows_into(values, w, &mut Places::of(&mut out));
    answer(code, out)
}

/// A call that is drawn as a case. What differs is the error.
pub fn ask(tally: &mut Tally, dice: &mut Dice) -> Result<(), String> {
    let call = drawn::drawn(dice);
    let asked = same(tally, &generate::floats(&call.values), call.w, &call.buffers);
    asked.map_err(|difference| format!("{}\n{difference}", call.text()))
}

/// A longer slice, of which fewer windows may be asked than it has.
pub fn ask_long(tally: &mut Tally, dice: &mut Dice) -> Result<(), String> {
    let mut values = long::stretches(dice);
    let most = dice.of(&[70, 70, 300, 1000]).min(values.len() as u64);
    let w = 1 + dice.below(most);
    values.truncate((w + MOST_WINDOWS - 1) as usize);
    let count = values.len() as u64 - w + 1;
    let out = unwritten((count + dice.below(2)) as usize);
    same(tally, &values, w, &out).map_err(|difference| format!("{count} windows of {w} values: {difference}"))
}

fn same(tally: &mut Tally, values: &[f64], w: u64, before: &Buffers) -> Result<(), String> {
    let expected = expected(values, w, before.clone());
    let found = engine(values, w, before.clone());
    if found != expected {
        return Err(difference(&expected, &found));
    }
    match found.0 {
        0 => places::count(tally, "window", &places::accs(found, values.len() - w as usize + 1)),
        code => tally.count(format!("refused {code}")),
    }
    Ok(())
}

/// The codes, or what the first place has that is not the same.
fn difference(expected: &Answer, found: &Answer) -> String {
    if found.0 != expected.0 {
        return format!("the oracle gives the code {}, the engine {}", expected.0, found.0);
    }
    let place = |answer: &Answer, at| (answer.1.get(at).copied(), answer.2.get(at).copied(), answer.3.get(at).copied());
    let at = (0..).find(|&at| place(found, at) != place(expected, at)).expect("some place differs");
    format!("place {at}: the oracle has {:x?}, the engine {:x?}", place(expected, at), place(found, at))
}
