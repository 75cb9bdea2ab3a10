//! No-go boxes in order and out of it (document 02, paper 2): each is greater than the one before,
//! compared side by side, lower and upper side of each variable in turn.

use crate::random::Random;
use second_guard::boxes::StateBox;
use second_guard::reach::{Step, Watch};
use second_guard::sheet::{self, Sheet};
use std::ops::ControlFlow;

const SIDE: i64 = sheet::SIDE_LIMIT;

/// The side in which two boxes first differ.
#[derive(Clone, Copy, Debug, PartialEq, Eq)]
pub enum Difference {
    First,
    Middle,
    Last,
    /// They are equal.
    None,
}

pub const DIFFERENCES: [Difference; 4] = [
    Difference::First,
    Difference::Middle,
    Difference::Last,
    Difference::None,
];

impl Difference {
    pub fn text(self) -> &'static str {
        match self {
            Difference::First => "neighbors differ in the first side",
            Difference::Middle => "neighbors differ in a middle side",
            Difference::Last => "neighbors differ in the last side",
            Difference::None => "equal neighbors",
        }
    }

    /// A side of this kind, of 2n; one variable has no middle side.
    fn side(self, random: &mut Random, n: usize) -> Option<usize> {
        match self {
            Difference::First => Some(0),
            Difference::Middle => (n > 1).then(|| 1 + random.below(2 * n - 2)),
            Difference::Last => Some(2 * n - 1),
            Difference::None => None,
        }
    }
}

/// A box's sides, lower and upper side of each of n variables in turn.
fn in_turn(sides: &StateBox, n: usize) -> Vec<i64> {
    let pair = |i: usize| [sides.lower[i], sides.upper[i]];
    (0..n).flat_map(pair).collect()
}

/// The inverse.
fn from_turns(turns: &[i64]) -> StateBox {
    let mut sides = StateBox::default();
    for (i, pair) in turns.chunks(2).enumerate() {
        (sides.lower[i], sides.upper[i]) = (pair[0], pair[1]);
    }
    sides
}

/// The first side in which two boxes of n variables differ.
fn first_difference(one: &StateBox, other: &StateBox, n: usize) -> Option<usize> {
    let (one, other) = (in_turn(one, n), in_turn(other, n));
    (0..2 * n).find(|&side| one[side] != other[side])
}

/// Where two boxes of n variables first differ.
pub fn difference(one: &StateBox, other: &StateBox, n: usize) -> Difference {
    match first_difference(one, other, n) {
        None => Difference::None,
        Some(0) => Difference::First,
        Some(side) if side == 2 * n - 1 => Difference::Last,
        Some(_) => Difference::Middle,
    }
}

/// A box whose first difference to this one is such, and there it is less. What comes after is
/// anything. None where such a box would be out of its bounds.
pub fn not_greater(
    random: &mut Random,
    before: &StateBox,
    n: usize,
    wanted: Difference,
) -> Option<StateBox> {
    if wanted == Difference::None {
        return Some(*before);
    }
    let side = wanted.side(random, n)?;
    let mut turns = in_turn(before, n);
    let is_upper = side % 2 == 1;
    let least = if is_upper { turns[side - 1] } else { -SIDE };
    if turns[side] == least {
        return None;
    }
    let any = random.range(least, turns[side] - 1);
    turns[side] = random.pick(&[turns[side] - 1, any]);
    if !is_upper && random.percent(50) {
        turns[side + 1] = SIDE;
    }
    for pair in turns.chunks_mut(2).skip(side / 2 + 1) {
        if random.percent(50) {
            pair.copy_from_slice(&random.pick(&[[-SIDE, SIDE], [0, 0], [SIDE, SIDE]]));
        }
    }
    Some(from_turns(&turns))
}

/// Any box of a sheet but the first, by its place, and other sides by which it is not greater than
/// the one before. In about half of the cases a single side is another.
pub fn any_not_greater(random: &mut Random, sheet: &Sheet) -> (usize, StateBox) {
    let (n, boxes) = (sheet.n(), sheet.unsafe_boxes());
    let j = 1 + random.below(boxes.len() - 1);
    let (before, this) = (&boxes[j - 1], &boxes[j]);
    let side = first_difference(before, this, n).expect("two boxes");
    let mut turns = in_turn(this, n);
    turns[side] = in_turn(before, n)[side] - 1;
    let lowered = from_turns(&turns);
    if lowered.ordered_within(n, SIDE) && random.percent(50) {
        return (j, lowered);
    }
    let wanted = random.pick(&DIFFERENCES);
    let less = not_greater(random, before, n, wanted);
    (j, less.unwrap_or(*before))
}

/// The values with their unsafe boxes, two or more, in another order.
pub fn shuffled(random: &mut Random, sheet: &Sheet) -> Sheet {
    let mut other = *sheet;
    while other.unsafe_boxes == sheet.unsafe_boxes {
        for j in 1..sheet.unsafe_boxes().len() {
            other.unsafe_boxes.swap(j, random.below(j + 1));
        }
    }
    other
}

/// Sees what the last step swept.
#[derive(Default)]
pub struct LastSwept(Option<StateBox>);

impl Watch for LastSwept {
    fn settled(&mut self, step: &Step) -> ControlFlow<()> {
        self.0 = Some(step.swept);
        ControlFlow::Continue(())
    }
}

impl LastSwept {
    /// The places of the unsafe boxes that it met.
    pub fn met(&self, sheet: &Sheet) -> Vec<usize> {
        let boxes = sheet.unsafe_boxes().iter().enumerate();
        let meets = |u: &StateBox| self.0.is_some_and(|swept| u.meets(&swept));
        boxes.filter(|(_, u)| meets(u)).map(|(j, _)| j).collect()
    }
}
