//! The changes and commands that a round looks at, for those who watch the engine: each band's row
//! gives a face one numerator, which is compared with −q·cap and q·cap before it is divided. A law that
//! follows the state gives it one sum, compared with divisor·least and divisor·greatest likewise.

use crate::machine::{limit, Clamp};
use crate::neighborhoods::Face;

/// Where a dividend lies between two limits. Only one strictly between them is divided.
#[derive(Clone, Copy, Debug, PartialEq, Eq)]
pub enum Place {
    /// At the least one or below it.
    Least,
    /// Strictly between the two.
    Between,
    /// At the greatest one or above it.
    Greatest,
}

impl Place {
    pub(crate) fn of(dividend: i64, least: i64, greatest: i64) -> Place {
        if dividend <= least {
            Place::Least
        } else if dividend >= greatest {
            Place::Greatest
        } else {
            Place::Between
        }
    }
}

/// Numerators at which a change is about to be clamped, or is rounded around zero.
#[derive(Clone, Copy, Debug, PartialEq, Eq)]
pub enum At {
    MinusLimit,
    AboveMinusLimit,
    MinusDivisor,
    MinusOne,
    Zero,
    One,
    Divisor,
    BelowLimit,
    Limit,
}

/// All of them.
pub const ALL_AT: [At; 9] = [
    At::MinusLimit,
    At::AboveMinusLimit,
    At::MinusDivisor,
    At::MinusOne,
    At::Zero,
    At::One,
    At::Divisor,
    At::BelowLimit,
    At::Limit,
];

impl At {
    pub fn numerator(self, q: i32, cap: i32) -> i64 {
        let (divisor, limit) = (i64::from(q), limit(q, cap));
        match self {
            At::MinusLimit => -limit,
            At::AboveMinusLimit => 1 - limit,
            At::MinusDivisor => -divisor,
            At::MinusOne => -1,
            At::Zero => 0,
            At::One => 1,
            At::Divisor => divisor,
            At::BelowLimit => limit - 1,
            At::Limit => limit,
        }
    }

    /// The numerator as it is written.
    pub fn text(self) -> &'static str {
        match self {
            At::MinusLimit => "-q*cap",
            At::AboveMinusLimit => "-q*cap + 1",
            At::MinusDivisor => "-q",
            At::MinusOne => "-1",
            At::Zero => "0",
            At::One => "1",
            At::Divisor => "q",
            At::BelowLimit => "q*cap - 1",
            At::Limit => "q*cap",
        }
    }
}

/// What a face of a variable looks at in one band.
#[derive(Clone, Copy, Debug, PartialEq, Eq)]
pub struct Change {
    pub variable: usize,
    pub face: Face,
    /// N − d for a lower face, N + d for an upper one.
    pub numerator: i64,
    pub q: i32,
    pub cap: i32,
}

impl Change {
    #[inline]
    pub fn new(variable: usize, face: Face, numerator: i64, q: i32, cap: i32) -> Change {
        Change {
            variable,
            face,
            numerator,
            q,
            cap,
        }
    }

    /// q·cap.
    pub fn limit(&self) -> i64 {
        limit(self.q, self.cap)
    }

    pub fn place(&self) -> Place {
        Place::of(self.numerator, -self.limit(), self.limit())
    }

    /// The numerator lies just there.
    pub fn is_at(&self, at: At) -> bool {
        self.numerator == at.numerator(self.q, self.cap)
    }
}

/// An end of a band's commands.
#[derive(Clone, Copy, Debug, PartialEq, Eq)]
pub enum End {
    Least,
    Greatest,
}

/// The end that a face looks at in one band, where the law follows the state and the face's row has a
/// term of the command.
#[derive(Clone, Copy, Debug)]
pub struct CommandEnd {
    pub end: End,
    /// The law's sum, at its least or at its greatest.
    pub sum: i64,
    pub clamp: Clamp,
}

impl CommandEnd {
    /// Where the sum lies between divisor·least and divisor·greatest of the safety range.
    pub fn place(&self) -> Place {
        self.clamp.place(self.sum)
    }
}
