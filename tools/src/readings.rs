//! The drive's readings as text: a value with a tolerance, a lower and an upper value, or none. Their numbers are
//! 32-bit floats, the nearest ones to what is written, and their boxes come from the archive.

use crate::archive::side;
use crate::sheet_text::range;
use crate::tokens::{Cursor, Fault, Token};
use std::fmt;

/// The kinds of readings as the guard's call takes them.
const POINT: u8 = 1;
const PAIR: u8 = 2;
const MISSING: u8 = 0;

/// The refusals of a reading: there is none, or a number of it is at fault.
const NO_READING: u8 = 18;
const NUMBER: u8 = 19;

const LIMIT: f32 = 1_000_000.0;
const TOLERANCE_LIMIT: f32 = 1_000.0;

/// What is no number, and what is beyond all numbers: the drive may report both.
const NOT_FINITE: [&str; 2] = ["nan", "inf"];

/// A reading's number as it was written.
#[derive(Clone, Debug, PartialEq, Eq)]
pub struct Written(String);

/// What the drive reports of a variable.
#[derive(Clone, Debug, PartialEq, Eq)]
pub enum Reading {
    Point { value: Written, tolerance: Written },
    Pair { lower: Written, upper: Written },
    Missing,
}

/// What a question's line has for a variable: the sides of its box, or a reading.
#[derive(Clone, Debug, PartialEq, Eq)]
pub enum Measured {
    Sides(i32, i32),
    Reading(Reading),
}

impl Written {
    /// The nearest float.
    pub fn value(&self) -> f32 {
        self.0.parse().expect("the number was tested")
    }

    fn floor(&self) -> i64 {
        side(self.value(), false).expect("the archive takes every number in range")
    }

    fn ceiling(&self) -> i64 {
        side(self.value(), true).expect("the archive takes every number in range")
    }

    /// The float has just the value that is written.
    fn is_exact(&self) -> bool {
        let size = self.0.trim_start_matches('-');
        let value = self.value().abs();
        // No float has more than 149 digits behind its point.
        NOT_FINITE.contains(&size)
            || value.is_finite() && digits(size) == digits(&format!("{value:.149}"))
    }

    /// The float, such as 0.10000000149011612 for 0.1; nothing where it has the value that is written.
    fn float(&self) -> Option<String> {
        let value = f64::from(self.value());
        let plain = value == 0.0 || (1e-5..1e15).contains(&value.abs());
        match (self.is_exact(), plain) {
            (true, _) => None,
            (false, true) => Some(value.to_string()),
            (false, false) => Some(format!("{value:e}")),
        }
    }
}

impl fmt::Display for Written {
    fn fmt(&self, out: &mut fmt::Formatter<'_>) -> fmt::Result {
        out.write_str(&self.0)
    }
}

/// The digits of a decimal number without a sign, but for zeros at both ends, and how many of them stand before its
/// point.
fn digits(text: &str) -> (String, i64) {
    let (size, exponent) = text.split_once(['e', 'E']).unwrap_or((text, "0"));
    let (whole, fraction) = size.split_once('.').unwrap_or((size, ""));
    let all = format!("{whole}{fraction}");
    let digits = all.trim_start_matches('0');
    if digits.is_empty() {
        return (String::new(), 0);
    }
    let exponent: i64 = exponent.parse().expect("the number was tested");
    let before = whole.len() as i64 - (all.len() - digits.len()) as i64 + exponent;
    (digits.trim_end_matches('0').into(), before)
}

/// `2999.5 +- 0.25`, `2999.2..3000.1` or `none`.
impl fmt::Display for Reading {
    fn fmt(&self, out: &mut fmt::Formatter<'_>) -> fmt::Result {
        match self {
            Reading::Point { value, tolerance } => write!(out, "{value} +- {tolerance}"),
            Reading::Pair { lower, upper } => out.write_str(&range(lower, upper)),
            Reading::Missing => out.write_str("none"),
        }
    }
}

impl Reading {
    /// The kind and the two numbers, as the guard's call takes them.
    pub fn call(&self) -> (u8, [f32; 2]) {
        match self {
            Reading::Point { value, tolerance } => (POINT, [value.value(), tolerance.value()]),
            Reading::Pair { lower, upper } => (PAIR, [lower.value(), upper.value()]),
            Reading::Missing => (MISSING, [0.0; 2]),
        }
    }

    /// The number with which the guard refuses this reading of a variable, and what is wrong in words.
    pub fn fault(&self, name: &str) -> Option<(u8, String)> {
        let in_limits = |what: &str, number: &Written| {
            let ends = range(-LIMIT, LIMIT);
            outside(what, number, (-LIMIT, LIMIT), &ends)
        };
        let words = match self {
            Reading::Missing => return Some((NO_READING, format!("{name} has no reading"))),
            Reading::Point { value, tolerance } => {
                in_limits(&format!("the value of {name}"), value).or_else(|| {
                    let ends = range(0, TOLERANCE_LIMIT);
                    let what = format!("the tolerance of {name}");
                    outside(&what, tolerance, (0.0, TOLERANCE_LIMIT), &ends)
                })
            }
            Reading::Pair { lower, upper } => {
                in_limits(&format!("the lower value of {name}"), lower).or_else(|| {
                    let ends = range(lower, LIMIT);
                    let what = format!("the upper value of {name}");
                    outside(&what, upper, (lower.value(), LIMIT), &ends)
                })
            }
        };
        words.map(|words| (NUMBER, words))
    }

    /// The lower and the upper side of its box, from the archive; nothing where the reading is refused.
    pub fn sides(&self) -> Option<(i64, i64)> {
        if self.fault("").is_some() {
            return None;
        }
        match self {
            Reading::Point { value, tolerance } => {
                let more = tolerance.ceiling();
                Some((value.floor() - more, value.ceiling() + more))
            }
            Reading::Pair { lower, upper } => Some((lower.floor(), upper.ceiling())),
            Reading::Missing => None,
        }
    }

    /// ` (0.1 taken as 0.10000000149011612)`, with each number that no float has.
    pub fn taken(&self) -> String {
        let numbers: Vec<&Written> = match self {
            Reading::Point { value, tolerance } => vec![value, tolerance],
            Reading::Pair { lower, upper } => vec![lower, upper],
            Reading::Missing => Vec::new(),
        };
        let taken: Vec<String> = numbers
            .into_iter()
            .filter_map(|number| Some(format!("{number} taken as {}", number.float()?)))
            .collect();
        match taken.is_empty() {
            true => String::new(),
            false => format!(" ({})", taken.join(", ")),
        }
    }
}

/// What is wrong with a number that does not lie within two ends; the words have them as they were written.
fn outside(
    what: &str,
    number: &Written,
    (least, greatest): (f32, f32),
    ends: &str,
) -> Option<String> {
    if (least..=greatest).contains(&number.value()) {
        return None;
    }
    let float = number.float().map(|float| format!(" (taken as {float})"));
    let float = float.unwrap_or_default();
    Some(format!(
        "{what} is {number}{float}, it has to lie within {ends}"
    ))
}

impl Measured {
    /// Beside a reading, whole sides are a pair.
    pub fn reading(self) -> Reading {
        let written = |side: i32| Written(side.to_string());
        match self {
            Measured::Sides(lower, upper) => Reading::Pair {
                lower: written(lower),
                upper: written(upper),
            },
            Measured::Reading(reading) => reading,
        }
    }
}

/// A number with its value, where it is whole.
fn number(cursor: &mut Cursor) -> Result<(Written, Option<i64>), Fault> {
    let sign = if cursor.take_sign("-") { "-" } else { "" };
    let (size, whole) = match cursor.peek() {
        Some(Token::Number(size)) => (size.to_string(), Some(*size)),
        Some(Token::Decimal(size)) => (size.clone(), None),
        Some(Token::Word(word)) if NOT_FINITE.contains(&word.as_str()) => (word.clone(), None),
        _ => return cursor.fault("a number is missing"),
    };
    cursor.take();
    let whole = whole.map(|size| if sign.is_empty() { size } else { -size });
    Ok((Written(format!("{sign}{size}")), whole))
}

/// What a question's line has behind a variable's name: `2998..3002` or `3000` are sides, `2999.5 +- 0.25` and `none`
/// are readings, and so is a pair with a number that has a point or an exponent.
pub fn measured(cursor: &mut Cursor) -> Result<Measured, Fault> {
    if cursor.take_word("none") {
        return Ok(Measured::Reading(Reading::Missing));
    }
    let (first, whole) = number(cursor)?;
    if cursor.take_sign("+-") {
        let (value, tolerance) = (first, number(cursor)?.0);
        return Ok(Measured::Reading(Reading::Point { value, tolerance }));
    }
    let (lower, upper, wholes) = if cursor.take_sign("..") {
        let (second, second_whole) = number(cursor)?;
        (first, second, whole.zip(second_whole))
    } else if let Some(whole) = whole {
        (first.clone(), first, Some((whole, whole)))
    } else {
        return cursor.fault(format!("'+-' and the tolerance of {first} are missing"));
    };
    match wholes {
        Some((l, u)) => Ok(Measured::Sides(cursor.fitting(l)?, cursor.fitting(u)?)),
        None => Ok(Measured::Reading(Reading::Pair { lower, upper })),
    }
}
