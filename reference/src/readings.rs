//! Readings of the new drive: paper 1 of document 02. A reading is worked out from the bits of its
//! floats in whole numbers alone.

use crate::boxes::VARIABLES;
use crate::decision::{decide_watched, read_question, test_head, Decision, Faults, Question};
use crate::reach::NoWatch;
use crate::sheet::{self, Refusal, Sheet};

const MAGNITUDE_LIMIT: u64 = 1_000_000;
const TOLERANCE_LIMIT: i64 = 1_000;

/// The bits of a float: a sign, an exponent and a fraction.
const FRACTION_BITS: u32 = 23;
const EXPONENT_BITS: u32 = 8;
/// The exponent of infinities and NaNs.
const NO_NUMBER: u32 = (1 << EXPONENT_BITS) - 1;
/// The exponent at which a significand counts ones.
const ONES: u32 = 150;

/// What the drive reports about a variable.
#[derive(Clone, Copy, Debug)]
pub enum Reading {
    Point { value: f32, tolerance: f32 },
    Pair { lower: f32, upper: f32 },
    Missing,
}

/// The bits without the sign; as whole numbers they ascend with the float's magnitude.
fn magnitude_bits(x: f32) -> u32 {
    x.to_bits() & !(1 << 31)
}

fn is_negative(x: f32) -> bool {
    x.to_bits() >> 31 == 1
}

/// A whole number that ascends with the float; both zeros have 0.
fn place(x: f32) -> i64 {
    let magnitude = i64::from(magnitude_bits(x));
    if is_negative(x) {
        -magnitude
    } else {
        magnitude
    }
}

/// The whole part of the float's magnitude, and whether something is left over; nothing for an
/// infinity, a NaN or a magnitude over 1,000,000.
fn whole_part(x: f32) -> Option<(u64, bool)> {
    let exponent = magnitude_bits(x) >> FRACTION_BITS;
    if exponent == NO_NUMBER {
        return None;
    }
    let fraction = u64::from(magnitude_bits(x)) % (1 << FRACTION_BITS);
    let implied = if exponent == 0 { 0 } else { 1 << FRACTION_BITS };
    let significand = fraction + implied;
    // The magnitude is significand · 2^(exponent − 150); a subnormal's exponent counts as 1.
    let exponent = exponent.max(1);
    if exponent >= ONES {
        // The significand is at least 2^23 here, and counts ones or more.
        return None;
    }
    // The significand is below 2^24: 63 halvings leave nothing whole of it, nor do more.
    let halvings = (ONES - exponent).min(63);
    let whole = significand >> halvings;
    let rest = significand != whole << halvings;
    let over = whole > MAGNITUDE_LIMIT || whole == MAGNITUDE_LIMIT && rest;
    (!over).then_some((whole, rest))
}

/// The ceiling of the float's exact value, or the floor; nothing where it is refused by 19.
pub fn rounded(x: f32, upper: bool) -> Option<i64> {
    let (whole, rest) = whole_part(x)?;
    // A ceiling is away from zero above it, a floor below it.
    let away = rest && upper != is_negative(x);
    let magnitude = whole as i64 + i64::from(away);
    Some(if is_negative(x) {
        -magnitude
    } else {
        magnitude
    })
}

/// The ceiling of a tolerance; nothing where it is refused by 19.
fn rounded_tolerance(tolerance: f32) -> Option<i64> {
    let up = rounded(tolerance, true)?;
    (place(tolerance) >= 0 && up <= TOLERANCE_LIMIT).then_some(up)
}

/// The sides of a value with its tolerance; nothing where it is refused by 19.
fn point_sides(value: f32, tolerance: f32) -> Option<(i64, i64)> {
    let (lower, upper) = (rounded(value, false)?, rounded(value, true)?);
    let wider = rounded_tolerance(tolerance)?;
    Some((lower - wider, upper + wider))
}

/// The sides of a pair; nothing where it is refused by 19.
fn pair_sides(lower: f32, upper: f32) -> Option<(i64, i64)> {
    let sides = (rounded(lower, false)?, rounded(upper, true)?);
    (place(lower) <= place(upper)).then_some(sides)
}

fn read_sides(reading: Reading) -> Result<(i64, i64), Refusal> {
    match reading {
        Reading::Point { value, tolerance } => {
            point_sides(value, tolerance).ok_or(Refusal::Reading)
        }
        Reading::Pair { lower, upper } => pair_sides(lower, upper).ok_or(Refusal::Reading),
        Reading::Missing => Err(Refusal::Missing),
    }
}

fn read_box(readings: &[Reading]) -> Result<Vec<(i64, i64)>, Refusal> {
    readings.iter().copied().map(read_sides).collect()
}

/// Lower and upper side of the variable, or the number of the refusal, 18 or 19.
pub fn sides(reading: Reading) -> Result<(i64, i64), u8> {
    read_sides(reading).map_err(Refusal::number)
}

/// The sides of all variables, or the first number of a refusal. They may be out of range.
pub fn measured_box(readings: &[Reading]) -> Result<Vec<(i64, i64)>, u8> {
    read_box(readings).map_err(Refusal::number)
}

/// The readings of n variables in a call's slices: a kind and two floats for each.
pub fn readings_of(n: usize, kinds: &[u8], values: &[f32]) -> Vec<Reading> {
    let reading = |i: usize| match (kinds.get(i), values.get(2 * i..2 * i + 2)) {
        (Some(1), Some(&[value, tolerance])) => Reading::Point { value, tolerance },
        (Some(2), Some(&[lower, upper])) => Reading::Pair { lower, upper },
        _ => Reading::Missing,
    };
    (0..n).map(reading).collect()
}

/// The question's bytes: the head, and the box's pairs behind it.
fn question_of(head: &[u8], measured: &[(i64, i64)]) -> Vec<u8> {
    let mut bytes = head.to_vec();
    for side in measured.iter().flat_map(|&(lower, upper)| [lower, upper]) {
        // A side is at most 1,001,000 from 0.
        bytes.extend((side as i32).to_be_bytes());
    }
    bytes
}

/// Reads the question of a head and of the readings of n variables; one that is not in the slice is
/// missing.
pub fn read_readings(
    sheet: &Sheet,
    head: &[u8],
    readings: &[Reading],
) -> Result<Question, Refusal> {
    test_head(sheet, head)?;
    let mut first = [Reading::Missing; VARIABLES];
    for (first, reading) in first.iter_mut().zip(readings) {
        *first = *reading;
    }
    let measured = read_box(&first[..sheet.n()])?;
    read_question(sheet, &question_of(head, &measured))
}

/// The decision on a sheet's bytes, on the bytes before a question's pairs and on a reading for each
/// variable.
pub fn decide_readings(sheet: &[u8], head: &[u8], readings: &[Reading]) -> Decision {
    let read = || {
        let sheet = sheet::read(sheet)?;
        let question = read_readings(&sheet, head, readings)?;
        Ok((sheet, question))
    };
    match read() {
        Ok((sheet, question)) => decide_watched(&sheet, &question, Faults::default(), &mut NoWatch),
        Err(refusal) => Decision::Refused(refusal),
    }
}

/// The same with the readings in a call's slices.
pub fn decide_slices(sheet: &[u8], head: &[u8], kinds: &[u8], values: &[f32]) -> Decision {
    decide_readings(sheet, head, &readings_of(VARIABLES, kinds, values))
}
