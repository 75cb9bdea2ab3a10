//! States and boxes of states.

use std::cmp::Ordering;

/// The most variables that a sheet has.
pub const VARIABLES: usize = 6;

/// One number per variable; those beyond n are 0.
pub type State = [i64; VARIABLES];

/// A box of states, both sides counted; the sides beyond n are 0.
#[derive(Clone, Copy, Debug, Default, PartialEq, Eq)]
pub struct StateBox {
    pub lower: State,
    pub upper: State,
}

impl StateBox {
    /// The first n sides are in order and within ±limit.
    pub fn ordered_within(&self, n: usize, limit: i64) -> bool {
        (0..n).all(|i| {
            -limit <= self.lower[i] && self.lower[i] <= self.upper[i] && self.upper[i] <= limit
        })
    }

    /// Lower and upper side of each of n variables.
    fn pairs(&self, n: usize) -> impl Iterator<Item = (i64, i64)> + '_ {
        self.lower[..n]
            .iter()
            .copied()
            .zip(self.upper[..n].iter().copied())
    }

    /// Compares two boxes by first lower side, first upper side, second lower side and so on, over
    /// n variables.
    pub fn compare(&self, other: &StateBox, n: usize) -> Ordering {
        self.pairs(n).cmp(other.pairs(n))
    }

    /// The box holds the state.
    pub fn holds(&self, state: &State) -> bool {
        (0..VARIABLES).all(|i| self.lower[i] <= state[i] && state[i] <= self.upper[i])
    }

    /// Every state of this box is in the other.
    #[inline]
    pub fn inside(&self, other: &StateBox) -> bool {
        self.inside_in::<VARIABLES>(other)
    }

    /// The same for N variables.
    #[inline]
    pub(crate) fn inside_in<const N: usize>(&self, other: &StateBox) -> bool {
        (0..N).all(|i| other.lower[i] <= self.lower[i] && self.upper[i] <= other.upper[i])
    }

    /// The two boxes share a state.
    #[inline]
    pub fn meets(&self, other: &StateBox) -> bool {
        self.meets_in(other, VARIABLES)
    }

    /// The same for n variables, whatever the sides beyond n are.
    #[inline]
    pub fn meets_in(&self, other: &StateBox, n: usize) -> bool {
        (0..n).all(|i| self.lower[i] <= other.upper[i] && other.lower[i] <= self.upper[i])
    }

    /// The least box that holds both.
    #[inline]
    pub fn hull(&self, other: &StateBox) -> StateBox {
        self.hull_in::<VARIABLES>(other)
    }

    /// The same for N variables.
    #[inline]
    pub(crate) fn hull_in<const N: usize>(&self, other: &StateBox) -> StateBox {
        let mut hull = *self;
        for i in 0..N {
            hull.lower[i] = self.lower[i].min(other.lower[i]);
            hull.upper[i] = self.upper[i].max(other.upper[i]);
        }
        hull
    }
}
