//! Recovery boxes on unsafe boxes and beside them (document 02, paper 8), and what a recovery check
//! does with the first: each attempt fails at its first step.

use crate::generate::set_in_order;
use crate::random::Random;
use second_guard::boxes::StateBox;
use second_guard::decision::RecoveryCheck;
use second_guard::reach::{Step, Watch};
use second_guard::sheet::{self, Sheet, UNSAFE_BOXES};
use std::ops::ControlFlow;

const SIDE: i64 = sheet::SIDE_LIMIT;
const START: i64 = sheet::START_LIMIT;

/// How an unsafe box and the recovery box share states.
#[derive(Clone, Copy, Debug, PartialEq, Eq)]
pub enum Sharing {
    /// Neither is in the other, and in some variable they share an end of both alone.
    Touching,
    /// Neither is in the other, and they share more.
    More,
    RecoveryInside,
    UnsafeInside,
}

pub const SHARINGS: [Sharing; 4] = [
    Sharing::Touching,
    Sharing::More,
    Sharing::RecoveryInside,
    Sharing::UnsafeInside,
];

impl Sharing {
    pub fn text(self) -> &'static str {
        match self {
            Sharing::Touching => "boxes only touch",
            Sharing::More => "boxes share more than an end",
            Sharing::RecoveryInside => "recovery box inside an unsafe box",
            Sharing::UnsafeInside => "unsafe box inside the recovery box",
        }
    }

    /// The place among all.
    pub fn place(self) -> usize {
        let place = SHARINGS.iter().position(|&sharing| sharing == self);
        place.expect("one of them")
    }
}

/// How the two share states, if they do.
pub fn sharing(unsafe_box: &StateBox, recovery: &StateBox, n: usize) -> Option<Sharing> {
    let touch = |i: usize| {
        unsafe_box.lower[i] == recovery.upper[i] || unsafe_box.upper[i] == recovery.lower[i]
    };
    if !unsafe_box.meets(recovery) {
        None
    } else if recovery.inside(unsafe_box) {
        Some(Sharing::RecoveryInside)
    } else if unsafe_box.inside(recovery) {
        Some(Sharing::UnsafeInside)
    } else if (0..n).any(touch) {
        Some(Sharing::Touching)
    } else {
        Some(Sharing::More)
    }
}

/// The places of the unsafe boxes that are on the recovery box.
pub fn on_recovery(sheet: &Sheet) -> Vec<usize> {
    let boxes = sheet.unsafe_boxes().iter().enumerate();
    let on = boxes.filter(|(_, unsafe_box)| unsafe_box.meets(&sheet.recovery));
    on.map(|(j, _)| j).collect()
}

/// The variable in which an unsafe box lies just beside the recovery box, all others being shared.
pub fn beside(unsafe_box: &StateBox, recovery: &StateBox, n: usize) -> Option<usize> {
    let apart = |i: &usize| {
        unsafe_box.lower[*i] > recovery.upper[*i] || unsafe_box.upper[*i] < recovery.lower[*i]
    };
    let apart: Vec<usize> = (0..n).filter(apart).collect();
    let by_one = |i: usize| {
        unsafe_box.lower[i] == recovery.upper[i] + 1 || unsafe_box.upper[i] == recovery.lower[i] - 1
    };
    match apart[..] {
        [i] if by_one(i) => Some(i),
        _ => None,
    }
}

/// Sides of a variable around these.
fn around(random: &mut Random, (lower, upper): (i64, i64)) -> (i64, i64) {
    let far = random.pick(&[0, 1, 50, 4 * SIDE]);
    let (below, above) = (random.range(0, far), random.range(0, far));
    ((lower - below).max(-SIDE), (upper + above).min(SIDE))
}

/// Sides within these.
fn within(random: &mut Random, (lower, upper): (i64, i64)) -> (i64, i64) {
    let (one, other) = (random.range(lower, upper), random.range(lower, upper));
    (one.min(other), one.max(other))
}

/// Sides over one end of these.
fn over_an_end(random: &mut Random, (lower, upper): (i64, i64)) -> (i64, i64) {
    let beyond = random.pick(&[1, 40, 4 * SIDE]);
    let shared = random.range(lower, upper);
    if random.percent(50) {
        (shared, (upper + beyond).min(SIDE))
    } else {
        ((lower - beyond).max(-SIDE), shared)
    }
}

/// Sides that share one end of these and no other value.
fn touching(random: &mut Random, (lower, upper): (i64, i64)) -> (i64, i64) {
    let thick = random.pick(&[0, 1, 40, 4 * SIDE]);
    if random.percent(50) {
        (upper, (upper + thick).min(SIDE))
    } else {
        ((lower - thick).max(-SIDE), lower)
    }
}

/// Draws the sides of an unsafe box in a variable from those of the recovery box.
type Draw = fn(&mut Random, (i64, i64)) -> (i64, i64);

/// A box that shares states with the recovery box in this way; none where the recovery box allows none.
pub fn any_sharing(random: &mut Random, sheet: &Sheet, wanted: Sharing) -> Option<StateBox> {
    let (n, recovery) = (sheet.n(), &sheet.recovery);
    let any: [Draw; 4] = [around, within, over_an_end, touching];
    let mut draw = || {
        let touched = random.below(n);
        let mut sides = StateBox::default();
        for i in 0..n {
            let draw = match wanted {
                Sharing::RecoveryInside => around,
                Sharing::UnsafeInside => within,
                Sharing::Touching if i == touched => touching,
                Sharing::Touching => random.pick(&any),
                Sharing::More => random.pick(&any[..3]),
            };
            let pair = (recovery.lower[i], recovery.upper[i]);
            (sides.lower[i], sides.upper[i]) = draw(random, pair);
        }
        sides
    };
    let mut drawn = (0..20).map(|_| draw());
    drawn.find(|sides| sharing(sides, recovery, n) == Some(wanted))
}

/// The sheet with one more unsafe box, or with it in the place of any; all of them in order.
pub fn with_box(random: &mut Random, sheet: &Sheet, sides: StateBox) -> Sheet {
    let mut other = *sheet;
    let count = sheet.unsafe_boxes().len();
    let added = count < UNSAFE_BOXES && random.percent(70);
    let at = if added { count } else { random.below(count) };
    other.unsafe_boxes[at] = sides;
    other.unsafe_count = (at + 1).max(count) as i32;
    set_in_order(&mut other);
    other
}

/// The box with its sides in one variable moved to just beside the recovery box.
pub fn moved_beside(random: &mut Random, sides: &StateBox, sheet: &Sheet) -> StateBox {
    let (i, recovery, mut moved) = (random.below(sheet.n()), &sheet.recovery, *sides);
    if random.percent(50) {
        moved.lower[i] = recovery.upper[i] + 1;
        moved.upper[i] = moved.upper[i].max(moved.lower[i]);
    } else {
        moved.upper[i] = recovery.lower[i] - 1;
        moved.lower[i] = moved.lower[i].min(moved.upper[i]);
    }
    moved
}

/// The recovery box, or the unsafe box at a place.
#[derive(Clone, Copy, Debug, PartialEq, Eq)]
pub enum Moved {
    Recovery,
    Unsafe(usize),
}

/// The box with those sides moved by which it is apart from the other, so that the two touch.
fn stretched(one: &StateBox, other: &StateBox, n: usize) -> StateBox {
    let mut sides = *one;
    for i in 0..n {
        sides.lower[i] = one.lower[i].min(other.upper[i]);
        sides.upper[i] = one.upper[i].max(other.lower[i]);
    }
    sides
}

/// All ways to move the sides of one box, so that the recovery box is on an unsafe box and nothing
/// else is wrong: up to the other box, or around it.
pub fn moved_onto(sheet: &Sheet) -> Vec<(Moved, StateBox)> {
    let (n, recovery) = (sheet.n(), &sheet.recovery);
    let ways = |one: &StateBox, other: &StateBox| [stretched(one, other, n), one.hull(other)];
    let mut found = Vec::new();
    for (j, unsafe_box) in sheet.unsafe_boxes().iter().enumerate() {
        for sides in ways(recovery, unsafe_box) {
            if sides.ordered_within(n, START) {
                found.push((Moved::Recovery, sides));
            }
        }
        for sides in ways(unsafe_box, recovery) {
            if fits_at(sheet, j, &sides) {
                found.push((Moved::Unsafe(j), sides));
            }
        }
    }
    found
}

/// The box is greater than the one before place j and less than the one after it.
fn fits_at(sheet: &Sheet, j: usize, sides: &StateBox) -> bool {
    let (n, boxes) = (sheet.n(), sheet.unsafe_boxes());
    let before = j.checked_sub(1).map(|before| &boxes[before]);
    before.is_none_or(|before| before.compare(sides, n).is_lt())
        && boxes
            .get(j + 1)
            .is_none_or(|after| sides.compare(after, n).is_lt())
}

/// Sees the settled steps of a recovery check.
#[derive(Default)]
pub struct Steps {
    settled: Vec<Step>,
    pub halved: bool,
}

impl Watch for Steps {
    fn halved(&mut self, _ticks: u32) {
        self.halved = true;
    }

    fn settled(&mut self, step: &Step) -> ControlFlow<()> {
        self.settled.push(*step);
        ControlFlow::Continue(())
    }
}

impl Steps {
    /// There is one step for each width of the check, and each begins with the recovery box: no
    /// attempt came to a second step.
    pub fn are_first_steps(&self, sheet: &Sheet) -> bool {
        let mut width = sheet.rho as u32;
        for step in &self.settled {
            if step.start != sheet.recovery || step.ticks > width {
                return false;
            }
            width /= 2;
        }
        width == 0
    }

    /// The check is a failure at width 1 with the rounds of these steps.
    pub fn are_all_of(&self, check: RecoveryCheck) -> bool {
        let rounds = self.settled.iter().map(|step| u64::from(step.rounds)).sum();
        check == RecoveryCheck::Fail { width: 1, rounds }
    }
}
