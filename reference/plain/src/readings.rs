//! Reports from the new drive: a reading per variable, the measured box that they give, and
//! the decision that takes them (document 02, paper 1).

use crate::decision::{decide, pack, REFUSED};
use crate::sheet::{read, read_head};

/// A value with a tolerance.
#[derive(Clone, Copy, Debug, PartialEq)]
pub struct Point {
    pub value: f32,
    pub tolerance: f32,
}

/// "The new drive reports each variable as a value with a tolerance, as a lower and an upper
/// value, or as no reading, all in 32-bit floats."
#[derive(Clone, Copy, Debug, PartialEq)]
pub enum Reading {
    Point(Point),
    Pair(f32, f32),
    Missing,
}

/// 19: a NaN, an infinity or a magnitude over 1,000,000.
fn test_float(x: f32) -> Result<(), u8> {
    if x.is_nan() {
        return Err(19);
    }
    if x.is_infinite() {
        return Err(19);
    }
    if x.abs() > 1_000_000.0 {
        return Err(19);
    }
    Ok(())
}

/// 19: also a tolerance below 0 or over 1,000. Minus zero is zero: it is not below 0.
fn test_point(value: f32, tolerance: f32) -> Result<(), u8> {
    test_float(value)?;
    test_float(tolerance)?;
    if tolerance < 0.0 || tolerance > 1_000.0 {
        return Err(19);
    }
    Ok(())
}

/// 19: also a reversed pair.
fn test_pair(lower: f32, upper: f32) -> Result<(), u8> {
    test_float(lower)?;
    test_float(upper)?;
    if lower > upper {
        return Err(19);
    }
    Ok(())
}

/// The greatest whole number not above x. Rust's `floor` is exact for every f32; a float that
/// passed its tests is within an i32.
fn floor(x: f32) -> i32 {
    x.floor() as i32
}

/// The least whole number not below x.
fn ceil(x: f32) -> i32 {
    x.ceil() as i32
}

/// The two sides that a reading gives, or 18 or 19. Each float is rounded by itself; the rest is
/// in whole numbers.
pub fn sides_of(reading: Reading) -> Result<(i32, i32), u8> {
    match reading {
        Reading::Missing => Err(18),
        Reading::Point(Point { value, tolerance }) => {
            test_point(value, tolerance)?;
            let room = ceil(tolerance);
            Ok((floor(value) - room, ceil(value) + room))
        }
        Reading::Pair(lower, upper) => {
            test_pair(lower, upper)?;
            Ok((floor(lower), ceil(upper)))
        }
    }
}

/// The measured box of n readings, variable by variable. A reading that is not there is missing.
pub fn measured_box(readings: &[Reading], n: u8) -> Result<Vec<(i32, i32)>, u8> {
    let mut sides = Vec::new();
    for i in 0..n as usize {
        let reading = match readings.get(i) {
            Some(reading) => *reading,
            None => Reading::Missing,
        };
        sides.push(sides_of(reading)?);
    }
    Ok(sides)
}

/// The measured box after all that comes before 15: the sheet, then 12, 13 and 14 of the bytes
/// before a question's pairs, then 18 and 19.
fn tested_box(sheet: &[u8], head: &[u8], readings: &[Reading]) -> Result<Vec<(i32, i32)>, u8> {
    let sheet = read(sheet)?;
    read_head(&sheet, head)?;
    measured_box(readings, sheet.n)
}

/// "A decision also takes the bytes before a question's pairs and, for the pairs, n readings."
pub fn decide_readings(sheet: &[u8], head: &[u8], readings: &[Reading]) -> u64 {
    let measured = match tested_box(sheet, head, readings) {
        Ok(measured) => measured,
        Err(number) => return pack(REFUSED, number as u64, 0),
    };
    // "It answers as for a question with that box"; one out of range is still 15.
    let mut question = head.to_vec();
    for (lower, upper) in measured {
        question.extend(lower.to_be_bytes());
        question.extend(upper.to_be_bytes());
    }
    decide(sheet, &question)
}
