//! What the recovery box shares with no-go boxes (document 02, paper 8): a sheet where it shares a state with
//! one of them is refused. Boxes share a state where their sides overlap in every variable, if only in one value.

use crate::names::Names;
use crate::show::{listed_sides, whole_sides};
use second_guard::boxes::StateBox;
use second_guard::sheet::Sheet;

/// The refusal of such a sheet.
pub const OVERLAP: u8 = 22;

/// The sides of two boxes overlap in variable i.
pub fn overlap_in(one: &StateBox, other: &StateBox, i: usize) -> bool {
    one.lower[i] <= other.upper[i] && other.lower[i] <= one.upper[i]
}

/// The box of the states that two boxes of n variables share; nothing where they share none.
pub fn common_part(one: &StateBox, other: &StateBox, n: usize) -> Option<StateBox> {
    let mut common = StateBox::default();
    for i in 0..n {
        common.lower[i] = one.lower[i].max(other.lower[i]);
        common.upper[i] = one.upper[i].min(other.upper[i]);
    }
    let shares = (0..n).all(|i| overlap_in(one, other, i));
    shares.then_some(common)
}

/// What is wrong, in parts that each end on a no-go box, with the number of that box: the first box with the
/// states that are shared, then all others. There are no parts where no box shares a state.
pub fn words(
    sheet: &Sheet,
    names: &Names,
    recovery: &str,
    named: impl Fn(usize) -> String,
) -> Vec<(String, usize)> {
    let mut parts = Vec::new();
    for (j, unsafe_box) in sheet.unsafe_boxes().iter().enumerate() {
        let Some(common) = common_part(unsafe_box, &sheet.recovery, sheet.n()) else {
            continue;
        };
        let unsafe_box = named(j);
        let words = match parts.len() {
            0 => {
                let sides = listed_sides(names, &common, 0..sheet.n(), whole_sides);
                format!("{recovery} shares {sides} with {unsafe_box}")
            }
            1 => format!("; it also shares states with {unsafe_box}"),
            _ => format!(", {unsafe_box}"),
        };
        parts.push((words, j));
    }
    parts
}

#[cfg(test)]
mod tests {
    use super::*;
    use crate::box_order::tests::two;

    #[test]
    fn one_common_value_in_every_variable_is_enough() {
        let middle = two([-5, 7, -3, 9]);
        let cases = [
            ([7, 20, 9, 20], Some([7, 7, 9, 9])),
            ([8, 20, 9, 20], None),
            ([7, 20, 10, 20], None),
            ([-20, -5, -20, -3], Some([-5, -5, -3, -3])),
            ([-20, -6, -20, -3], None),
            ([-20, -5, -20, -4], None),
            ([-20, 20, 0, 1], Some([-5, 7, 0, 1])),
            ([1, 1, 2, 2], Some([1, 1, 2, 2])),
        ];
        for (sides, expected) in cases {
            let (other, expected) = (two(sides), expected.map(two));
            assert_eq!(common_part(&middle, &other, 2), expected);
            assert_eq!(common_part(&other, &middle, 2), expected);
        }
    }

    #[test]
    fn sides_beyond_n_do_not_count() {
        let (one, other) = (two([-5, 7, -3, 9]), two([7, 8, 20, 10]));
        assert_eq!(common_part(&one, &other, 2), None);
        assert_eq!(common_part(&one, &other, 1), Some(two([7, 7, 0, 0])));
    }
}
