//! What tests of machines share: a simulation in small steps of real numbers, disturbances, and what a sheet says of
//! a tick.

use super::{load, Numbers};
use second_guard::boxes::{State, StateBox};
use second_guard::machine::allowed_change;
use second_guard::sheet::Sheet;
use sheet_tool::archive;
use sheet_tool::questions::{cut, AskedQuestion};

/// Parts of a tick in which a disturbance stays the same.
pub const PARTS: usize = 20;
/// Steps of the simulation in each part.
pub const STEPS: usize = 10;

/// One step of a fourth-order method; `change` is the rate at a state.
pub fn step<const N: usize>(
    state: [f64; N],
    seconds: f64,
    change: impl Fn([f64; N]) -> [f64; N],
) -> [f64; N] {
    let moved = |by: [f64; N], part: f64| -> [f64; N] {
        std::array::from_fn(|i| state[i] + by[i] * part * seconds)
    };
    let first = change(state);
    let second = change(moved(first, 0.5));
    let third = change(moved(second, 0.5));
    let fourth = change(moved(third, 1.0));
    std::array::from_fn(|i| {
        let sum = first[i] + 2.0 * second[i] + 2.0 * third[i] + fourth[i];
        state[i] + sum * seconds / 6.0
    })
}

/// A state of as many variables as there are values.
pub fn state_of(values: &[i64]) -> State {
    let mut state = State::default();
    state[..values.len()].copy_from_slice(values);
    state
}

/// The sheet allows these changes of the whole numbers.
pub fn allowed(sheet: &Sheet, before: State, after: State, command: i32) {
    for i in 0..sheet.n() {
        let change = after[i] - before[i];
        let (least, greatest) =
            allowed_change(sheet, &before, command, i).expect("a state in a band");
        assert!(
            (least..=greatest).contains(&change),
            "variable {i} from {before:?} to {after:?} under {command}: {least}..{greatest}"
        );
    }
}

pub fn forbidden(sheet: &Sheet, state: &State) -> bool {
    sheet
        .unsafe_boxes()
        .iter()
        .any(|unsafe_box| unsafe_box.holds(state))
}

/// A number between two ends, often one of the ends.
pub fn extreme(numbers: &mut Numbers, least: f64, greatest: f64) -> f64 {
    match numbers.whole(0, 2) {
        0 => least,
        1 => greatest,
        _ => numbers.real(least, greatest),
    }
}

/// A disturbance in each part of a tick: in every other tick the same in all of them.
pub fn disturbances(numbers: &mut Numbers, least: f64, greatest: f64) -> [f64; PARTS] {
    let held = extreme(numbers, least, greatest);
    if numbers.whole(0, 1) == 0 {
        return [held; PARTS];
    }
    std::array::from_fn(|_| extreme(numbers, least, greatest))
}

/// The measured boxes of a file of questions, the refused ones too.
pub fn measured(name: &str) -> Vec<StateBox> {
    let (sheet, _, asks) = load(name);
    cut(&asks, sheet.n())
        .map(|bytes| AskedQuestion::from_bytes(bytes, sheet.n()))
        .map(|question| question.expect("a question").measured)
        .collect()
}

/// The questions of an example that are kept.
pub fn kept(name: &str) -> Vec<AskedQuestion> {
    let (sheet, bytes, asks) = load(name);
    cut(&asks, sheet.n())
        .filter(|question| archive::decide(&bytes, question).code() == 0)
        .filter_map(|question| AskedQuestion::from_bytes(question, sheet.n()))
        .collect()
}
