//! The order of a sheet's no-go boxes (document 02, paper 2): by the first variable's lower side, then its
//! upper side, then the second variable's, and so on. Each box has to be greater than the one before.

use second_guard::boxes::StateBox;
use std::cmp::Ordering;

/// The sides of n variables, in the order in which they are compared.
fn sides(unsafe_box: &StateBox, n: usize) -> Vec<i64> {
    (0..n)
        .flat_map(|i| [unsafe_box.lower[i], unsafe_box.upper[i]])
        .collect()
}

/// How a box compares with another one.
pub fn compare(one: &StateBox, other: &StateBox, n: usize) -> Ordering {
    sides(one, n).cmp(&sides(other, n))
}

/// The boxes by their numbers in ascending order; equal ones stay in the order in which they stand.
pub fn ascending(boxes: &[StateBox], n: usize) -> Vec<usize> {
    let mut order: Vec<usize> = (0..boxes.len()).collect();
    order.sort_by_key(|&j| sides(&boxes[j], n));
    order
}

/// For each new box the number of an old one: an equal one if there is one, and the others in their order.
/// There are as many old boxes as new ones, and each is taken once.
pub fn counterparts(new: &[StateBox], old: &[StateBox], n: usize) -> Vec<usize> {
    let mut free: Vec<usize> = (0..old.len()).collect();
    let mut take_equal = |wanted: &StateBox| {
        let is_equal = |&k: &usize| compare(&old[k], wanted, n).is_eq();
        let at = free.iter().position(is_equal)?;
        Some(free.remove(at))
    };
    let equal: Vec<Option<usize>> = new.iter().map(&mut take_equal).collect();
    let mut others = free.into_iter();
    equal
        .into_iter()
        .map(|k| k.or_else(|| others.next()).expect("as many boxes"))
        .collect()
}

/// What is wrong with a box that compares so with the one before, in words that end before that one.
pub fn words(found: Ordering) -> &'static str {
    match found {
        Ordering::Equal => "is equal to",
        Ordering::Less => "has to stand before",
        Ordering::Greater => "stands after",
    }
}

#[cfg(test)]
pub(crate) mod tests {
    use super::*;

    /// A box of two variables by its sides in the order in which they are compared.
    pub(crate) fn two([lower, upper, second_lower, second_upper]: [i64; 4]) -> StateBox {
        let mut sides = StateBox::default();
        sides.lower[..2].copy_from_slice(&[lower, second_lower]);
        sides.upper[..2].copy_from_slice(&[upper, second_upper]);
        sides
    }

    #[test]
    fn the_first_side_that_differs_decides() {
        let middle = two([-5, 7, -3, 9]);
        assert_eq!(compare(&middle, &middle, 2), Ordering::Equal);
        let greater = [
            [-4, 6, -9, 0],
            [-5, 8, -9, 0],
            [-5, 7, -2, 0],
            [-5, 7, -3, 10],
        ];
        for sides in greater {
            assert_eq!(compare(&two(sides), &middle, 2), Ordering::Greater);
            assert_eq!(compare(&middle, &two(sides), 2), Ordering::Less);
        }
    }

    #[test]
    fn sides_beyond_n_are_not_compared() {
        let (one, other) = (two([-5, 7, -3, 9]), two([-5, 7, 3, 4]));
        assert_eq!(compare(&one, &other, 1), Ordering::Equal);
        assert_eq!(ascending(&[other, one], 1), [0, 1]);
        assert_eq!(ascending(&[other, one], 2), [1, 0]);
    }

    #[test]
    fn equal_boxes_go_together_and_the_others_in_order() {
        let boxes = [1, 2, 3, 4].map(|lower| two([lower, 9, 0, 0]));
        let moved = two([8, 9, 0, 0]);
        let new = [boxes[1], boxes[3], moved, two([9, 9, 0, 0])];
        assert_eq!(counterparts(&new, &boxes, 2), [1, 3, 0, 2]);
        let twice = [boxes[2], boxes[2], boxes[0], moved];
        assert_eq!(counterparts(&twice, &boxes, 2), [2, 1, 0, 3]);
    }
}
