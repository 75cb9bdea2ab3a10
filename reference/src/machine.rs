//! The machine on a sheet: bands of one variable, the plain law's commands at a state, and the changes
//! that a row allows in one tick, with outward rounding and the clamp. A numerator is compared with
//! −q·cap and q·cap first and divided only strictly between them (paper 6 of document 02); a law's sum
//! likewise with divisor·least and divisor·greatest of the safety range.

use crate::boxes::State;
use crate::changes::Place;
use crate::sheet::{CommandRange, Kind, Row, Sheet};
use std::ops::Range;

/// q·cap: from here on a change is at the cap. It is at most 4,096,000.
#[inline]
pub fn limit(q: i32, cap: i32) -> i64 {
    i64::from(q) * i64::from(cap)
}

/// The quotient rounded down. It asks of its caller that −q·cap < numerator < q·cap; so the
/// numerator and q·cap together are above 0 and fit 32 bits.
#[inline]
pub fn floor_div(numerator: i64, q: i32, cap: i32) -> i64 {
    let limit = limit(q, cap);
    debug_assert!(-limit < numerator && numerator < limit);
    let above_least = (numerator + limit) as u32;
    i64::from(above_least / q as u32) - i64::from(cap)
}

/// The quotient rounded up. It asks the same.
#[inline]
pub fn ceil_div(numerator: i64, q: i32, cap: i32) -> i64 {
    let limit = limit(q, cap);
    debug_assert!(-limit < numerator && numerator < limit);
    let below_greatest = (limit - numerator) as u32;
    i64::from(cap) - i64::from(below_greatest / q as u32)
}

/// The lesser of the least change so far, from −cap to cap, and of the quotient rounded down and
/// clamped. It divides only where that is the answer: a numerator at or above q·cap is also at or
/// above q times the least so far.
#[inline]
pub fn least_so_far(numerator: i64, q: i32, cap: i32, least: i64) -> i64 {
    if numerator <= -limit(q, cap) {
        -i64::from(cap)
    } else if numerator >= least * i64::from(q) {
        least
    } else {
        floor_div(numerator, q, cap)
    }
}

/// The greater of the greatest change so far and of the quotient rounded up and clamped, likewise.
#[inline]
pub fn greatest_so_far(numerator: i64, q: i32, cap: i32, greatest: i64) -> i64 {
    if numerator >= limit(q, cap) {
        i64::from(cap)
    } else if numerator <= greatest * i64::from(q) {
        greatest
    } else {
        ceil_div(numerator, q, cap)
    }
}

/// The least allowed change for a row's N: the floor of (N − d)/q, clamped.
#[inline]
pub fn least_change(row: &Row, numerator: i64, cap: i32) -> i64 {
    least_so_far(numerator - i64::from(row.d), row.q, cap, i64::from(cap))
}

/// The greatest allowed change for a row's N: the ceiling of (N + d)/q, clamped.
#[inline]
pub fn greatest_change(row: &Row, numerator: i64, cap: i32) -> i64 {
    greatest_so_far(numerator + i64::from(row.d), row.q, cap, -i64::from(cap))
}

/// The number of the band that a value of the band variable lies in; below the first edge none.
pub fn band_of(sheet: &Sheet, value: i64) -> Option<usize> {
    bands_met(sheet, value, value).next()
}

/// The bands that values from `least` to `greatest` of the band variable meet.
#[inline]
pub fn bands_met(sheet: &Sheet, least: i64, greatest: i64) -> Range<usize> {
    let bands = sheet.bands();
    let mut end = bands.len();
    while end > 0 && i64::from(bands[end - 1].edge) > greatest {
        end -= 1;
    }
    let mut first = end;
    while first > 0 {
        first -= 1;
        if i64::from(bands[first].edge) <= least {
            break;
        }
    }
    first..end
}

/// A law's divisor and the safety range that its commands are clamped to.
#[derive(Clone, Copy, Debug)]
pub struct Clamp {
    divisor: u32,
    least: i64,
    greatest: i64,
    /// divisor·least and divisor·greatest. They differ by at most 81,920,000.
    least_sum: i64,
    greatest_sum: i64,
}

impl Clamp {
    #[inline]
    pub fn new(divisor: i32, safety: CommandRange) -> Clamp {
        let (least, greatest) = (i64::from(safety.least), i64::from(safety.greatest));
        Clamp {
            divisor: divisor as u32,
            least,
            greatest,
            least_sum: i64::from(divisor) * least,
            greatest_sum: i64::from(divisor) * greatest,
        }
    }

    /// The least command at this sum: the quotient rounded down, clamped.
    #[inline]
    pub fn least_command(&self, sum: i64) -> i64 {
        if sum <= self.least_sum {
            self.least
        } else if sum >= self.greatest_sum {
            self.greatest
        } else {
            self.least + i64::from((sum - self.least_sum) as u32 / self.divisor)
        }
    }

    /// The greatest command at this sum: the quotient rounded up, clamped.
    #[inline]
    pub fn greatest_command(&self, sum: i64) -> i64 {
        if sum >= self.greatest_sum {
            self.greatest
        } else if sum <= self.least_sum {
            self.least
        } else {
            self.greatest - i64::from((self.greatest_sum - sum) as u32 / self.divisor)
        }
    }

    /// Where the sum lies between divisor·least and divisor·greatest.
    pub fn place(&self, sum: i64) -> Place {
        Place::of(sum, self.least_sum, self.greatest_sum)
    }
}

/// The commands that the plain law has at a state; below the first edge none.
pub fn plain_commands(sheet: &Sheet, state: &State) -> Option<CommandRange> {
    let band = &sheet.bands[band_of(sheet, state[sheet.band_variable as usize])?];
    if sheet.kind() == Kind::Fixed {
        return Some(band.safety);
    }
    let law = &band.law;
    let mut sum = i64::from(law.constant);
    for (&coefficient, &x) in law.coefficients.iter().zip(state).take(sheet.n()) {
        sum += i64::from(coefficient) * x;
    }
    let clamp = Clamp::new(law.divisor, band.safety);
    Some(CommandRange {
        least: clamp.least_command(sum) as i32,
        greatest: clamp.greatest_command(sum) as i32,
    })
}

/// The least and the greatest change that variable i may take in one tick.
pub fn allowed_change(sheet: &Sheet, state: &State, command: i32, i: usize) -> Option<(i64, i64)> {
    let band = band_of(sheet, state[sheet.band_variable as usize])?;
    let row = &sheet.bands[band].rows[i];
    let cap = sheet.caps[i];
    let mut numerator = i64::from(row.b) * i64::from(command) + i64::from(row.c);
    for (&a, &x) in row.a.iter().zip(state).take(sheet.n()) {
        numerator += i64::from(a) * x;
    }
    Some((
        least_change(row, numerator, cap),
        greatest_change(row, numerator, cap),
    ))
}
