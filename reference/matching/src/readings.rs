//! Readings of the new drive (document 02, paper 1): floats of every sort, readings that come to a
//! wanted box or allow a state, readings that are refused, and boxes by other rules.

use crate::generate::{question_bytes, span_bytes};
use crate::random::Random;
use second_guard::boxes::{State, StateBox};
use second_guard::readings::Reading;
use second_guard::sheet::CommandRange;

/// The greatest magnitude of a value and of a pair's sides, and the greatest tolerance.
const MAGNITUDE: f32 = 1_000_000.0;
const TOLERANCE: f32 = 1_000.0;
/// The same as whole numbers.
const WHOLE_MAGNITUDE: i64 = MAGNITUDE as i64;
const WHOLE_TOLERANCE: i64 = TOLERANCE as i64;

/// The bits of a float's sign, of an infinity, and the greatest fraction.
const SIGN: u32 = 1 << 31;
const INFINITY: u32 = 0x7f80_0000;
const FRACTION: u32 = 0x007f_ffff;

/// The numbers by which a decision on readings can be refused.
pub const REFUSALS: [u8; 19] = [
    1, 2, 3, 4, 5, 6, 7, 8, 9, 10, 11, 12, 13, 14, 15, 18, 19, 20, 22,
];

/// Of which sort a float is.
#[derive(Clone, Copy, Debug, PartialEq, Eq)]
pub enum Sort {
    Zero,
    MinusZero,
    Subnormal,
    /// Below a thousandth.
    Tiny,
    Whole,
    Half,
    Quarter,
    /// Any other one up to 1,000,000.
    Fraction,
    /// 1,000 or 1,000,000.
    Limit,
    /// Next to one of them.
    BesideLimit,
    /// Over 1,000,000.
    Beyond,
    Infinite,
    Nan,
}

/// All of them.
pub const SORTS: [Sort; 13] = [
    Sort::Zero,
    Sort::MinusZero,
    Sort::Subnormal,
    Sort::Tiny,
    Sort::Whole,
    Sort::Half,
    Sort::Quarter,
    Sort::Fraction,
    Sort::Limit,
    Sort::BesideLimit,
    Sort::Beyond,
    Sort::Infinite,
    Sort::Nan,
];

impl Sort {
    pub fn of(x: f32) -> Sort {
        let size = x.abs();
        let limits = [TOLERANCE, MAGNITUDE];
        let beside = |limit: f32| size == limit.next_up() || size == limit.next_down();
        if x.is_nan() {
            Sort::Nan
        } else if x.is_infinite() {
            Sort::Infinite
        } else if x.to_bits() == SIGN {
            Sort::MinusZero
        } else if size == 0.0 {
            Sort::Zero
        } else if limits.contains(&size) {
            Sort::Limit
        } else if limits.into_iter().any(beside) {
            Sort::BesideLimit
        } else if size > MAGNITUDE {
            Sort::Beyond
        } else if x.is_subnormal() {
            Sort::Subnormal
        } else if size < 0.001 {
            Sort::Tiny
        } else {
            Sort::of_fraction(size.fract())
        }
    }

    fn of_fraction(fraction: f32) -> Sort {
        if fraction == 0.0 {
            Sort::Whole
        } else if fraction == 0.5 {
            Sort::Half
        } else if fraction == 0.25 || fraction == 0.75 {
            Sort::Quarter
        } else {
            Sort::Fraction
        }
    }

    pub fn place(self) -> usize {
        SORTS.iter().position(|&of| of == self).expect("one of all")
    }

    pub fn text(self) -> &'static str {
        match self {
            Sort::Zero => "zero",
            Sort::MinusZero => "minus zero",
            Sort::Subnormal => "subnormal",
            Sort::Tiny => "below a thousandth",
            Sort::Whole => "whole",
            Sort::Half => "with a half",
            Sort::Quarter => "with quarters",
            Sort::Fraction => "with another fraction",
            Sort::Limit => "at a limit",
            Sort::BesideLimit => "next to a limit",
            Sort::Beyond => "over 1,000,000",
            Sort::Infinite => "infinite",
            Sort::Nan => "NaN",
        }
    }
}

/// The float with either sign.
fn either_sign(random: &mut Random, x: f32) -> f32 {
    f32::from_bits(x.to_bits() ^ random.pick(&[0, SIGN]))
}

/// A float of these bits, each alike.
fn of_bits(random: &mut Random, least: u32, greatest: u32) -> f32 {
    f32::from_bits(random.range(least.into(), greatest.into()) as u32)
}

/// A float of this sort.
pub fn float_of(random: &mut Random, sort: Sort) -> f32 {
    let whole = random.spread(1, WHOLE_MAGNITUDE);
    let limit = random.pick(&[TOLERANCE, MAGNITUDE]);
    let size = match sort {
        Sort::Zero => return 0.0,
        Sort::MinusZero => return -0.0,
        Sort::Subnormal => {
            let any = of_bits(random, 1, FRACTION);
            random.pick(&[f32::from_bits(1), f32::from_bits(FRACTION), any])
        }
        Sort::Tiny => of_bits(random, FRACTION + 1, 0.001_f32.to_bits() - 1),
        Sort::Whole => whole as f32,
        Sort::Half => whole as f32 - 0.5,
        Sort::Quarter => whole as f32 - random.pick(&[0.25, 0.75]),
        Sort::Fraction => between(random, whole - 1),
        Sort::Limit => limit,
        Sort::BesideLimit => random.pick(&[limit.next_up(), limit.next_down()]),
        Sort::Beyond => of_bits(random, MAGNITUDE.to_bits() + 2, INFINITY - 1),
        Sort::Infinite => f32::INFINITY,
        Sort::Nan => of_bits(random, INFINITY + 1, INFINITY + FRACTION),
    };
    either_sign(random, size)
}

/// A float of any sort, or of any bits.
pub fn any_float(random: &mut Random) -> f32 {
    if random.percent(10) {
        return f32::from_bits(random.bits() as u32);
    }
    let sort = random.pick(&SORTS);
    float_of(random, sort)
}

/// A whole number as a float; 0 with either sign.
fn exactly(random: &mut Random, whole: i64) -> f32 {
    match whole {
        0 => random.pick(&[0.0, -0.0]),
        _ => whole as f32,
    }
}

/// A float strictly between a whole number from -1,000,000 to 999,999 and the next one.
fn between(random: &mut Random, whole: i64) -> f32 {
    let (from, to) = (whole as f32, (whole + 1) as f32);
    match random.below(8) {
        0 => from.next_up(),
        1 => to.next_down(),
        2 | 3 => from + 0.5,
        4 => from + random.pick(&[0.25, 0.75]),
        _ => {
            // Each one alike.
            let sign = from.to_bits() & SIGN;
            let [one, other] = [from, to].map(|end| end.abs().to_bits());
            let size = of_bits(random, one.min(other) + 1, one.max(other) - 1);
            f32::from_bits(size.to_bits() | sign)
        }
    }
}

/// A float whose floor is this.
fn with_floor(random: &mut Random, floor: i64) -> f32 {
    if floor == WHOLE_MAGNITUDE || random.percent(30) {
        exactly(random, floor)
    } else {
        between(random, floor)
    }
}

/// A float whose ceiling is this.
fn with_ceiling(random: &mut Random, ceiling: i64) -> f32 {
    if ceiling == -WHOLE_MAGNITUDE || random.percent(30) {
        exactly(random, ceiling)
    } else {
        between(random, ceiling - 1)
    }
}

/// A tolerance with this ceiling.
fn tolerance_of(random: &mut Random, ceiling: i64) -> f32 {
    match ceiling {
        0 => exactly(random, 0),
        _ => with_ceiling(random, ceiling),
    }
}

fn point_for(random: &mut Random, lower: i64, upper: i64) -> Reading {
    let ceiling = (upper - lower) / 2;
    let tolerance = tolerance_of(random, ceiling);
    let value = match (upper - lower) % 2 {
        0 => exactly(random, lower + ceiling),
        _ => between(random, lower + ceiling),
    };
    Reading::Point { value, tolerance }
}

fn pair_for(random: &mut Random, lower: i64, upper: i64) -> Reading {
    if lower == upper {
        return Reading::Pair {
            lower: exactly(random, lower),
            upper: exactly(random, upper),
        };
    }
    let (one, other) = (with_floor(random, lower), with_ceiling(random, upper));
    // Between two whole numbers next to each other both can be either side.
    Reading::Pair {
        lower: one.min(other),
        upper: one.max(other),
    }
}

/// A reading that comes to these sides, which are a question's.
pub fn reading_for(random: &mut Random, lower: i64, upper: i64) -> Reading {
    let has_point = (upper - lower) / 2 <= WHOLE_TOLERANCE;
    if has_point && random.percent(60) {
        point_for(random, lower, upper)
    } else {
        pair_for(random, lower, upper)
    }
}

/// Readings that come to the box's sides in n variables.
pub fn readings_for(random: &mut Random, sides: &StateBox, n: usize) -> Vec<Reading> {
    (0..n)
        .map(|i| reading_for(random, sides.lower[i], sides.upper[i]))
        .collect()
}

/// A tolerance of any float; half of them are not refused.
fn any_tolerance(random: &mut Random) -> f32 {
    if random.percent(50) {
        return any_float(random);
    }
    let ceiling = random.spread(1, WHOLE_TOLERANCE);
    let other = tolerance_of(random, ceiling);
    random.pick(&[TOLERANCE, TOLERANCE.next_down(), 0.0, -0.0, other, other])
}

/// A reading of any floats, or none; half of the pairs are in order.
pub fn any_reading(random: &mut Random) -> Reading {
    let (one, other) = (any_float(random), any_float(random));
    let (lower, upper) = match random.percent(50) {
        true if other < one => (other, one),
        _ => (one, other),
    };
    match random.below(20) {
        0 => Reading::Missing,
        1..=10 => Reading::Point {
            value: one,
            tolerance: any_tolerance(random),
        },
        _ => Reading::Pair { lower, upper },
    }
}

/// How far a reading's numbers lie from a state's: some eighths, or any distance that a float has.
fn distance(random: &mut Random, room: i64) -> f64 {
    let eighths = random.range(0, 8 * room);
    if random.percent(60) {
        eighths as f64 / 8.0
    } else {
        let noise = random.range(0, 1 << 30) as f64 / (1_u64 << 30) as f64;
        (eighths as f64 * noise) / 8.0
    }
}

/// The least float that is not below a number.
fn float_up(x: f64) -> f32 {
    let near = x as f32;
    if f64::from(near) < x {
        near.next_up()
    } else {
        near
    }
}

/// A reading that allows a whole number: a value whose tolerance reaches it, or a pair around it. The
/// numbers lie so far from it at most; a tolerance is some more in some cases.
pub fn reading_allowing(random: &mut Random, x: i64, room: i64) -> Reading {
    let true_value = x as f64;
    let (one, other) = (distance(random, room), distance(random, room));
    if random.percent(40) {
        return Reading::Pair {
            lower: -float_up(one - true_value),
            upper: float_up(true_value + other),
        };
    }
    let value = (true_value + random.pick(&[-one, one])) as f32;
    let error = (f64::from(value) - true_value).abs();
    let more = random.pick(&[0.0, 0.0, 0.125, other]);
    Reading::Point {
        value,
        tolerance: float_up((error + more).min(TOLERANCE.into())),
    }
}

/// The reading allows the whole number. For floats that `f64` subtracts without rounding.
pub fn allows(reading: Reading, x: i64) -> bool {
    let x = x as f64;
    match reading {
        Reading::Point { value, tolerance } => (x - f64::from(value)).abs() <= tolerance.into(),
        Reading::Pair { lower, upper } => f64::from(lower) <= x && x <= upper.into(),
        Reading::Missing => false,
    }
}

/// Readings that allow a state, each with its room.
pub fn readings_allowing(random: &mut Random, state: &State, rooms: &[i64]) -> Vec<Reading> {
    let of = |(&x, &room): (&i64, &i64)| reading_allowing(random, x, room);
    state.iter().zip(rooms).map(of).collect()
}

/// What a call is given for its readings.
#[derive(Clone, Debug, Default, PartialEq)]
pub struct Report {
    pub kinds: Vec<u8>,
    pub values: Vec<f32>,
}

impl Report {
    /// The readings' kinds and floats; a missing one has any other kind and any floats.
    pub fn of(random: &mut Random, readings: &[Reading]) -> Report {
        let mut report = Report::default();
        for &reading in readings {
            let (kind, floats) = match reading {
                Reading::Point { value, tolerance } => (1, [value, tolerance]),
                Reading::Pair { lower, upper } => (2, [lower, upper]),
                Reading::Missing => (other_kind(random), [any_float(random), any_float(random)]),
            };
            report.kinds.push(kind);
            report.values.extend(floats);
        }
        report
    }

    fn put(&mut self, i: usize, kind: u8, floats: [f32; 2]) {
        self.kinds[i] = kind;
        self.values[2 * i..2 * i + 2].copy_from_slice(&floats);
    }
}

/// The bits of floats in hexadecimal digits.
pub fn bits_text(values: &[f32]) -> String {
    let texts: Vec<String> = values
        .iter()
        .map(|value| format!("{:08x}", value.to_bits()))
        .collect();
    texts.join(" ")
}

/// A kind that is none of a reading.
fn other_kind(random: &mut Random) -> u8 {
    let any = random.int(3, 255) as u8;
    random.pick(&[0, 0, 3, 255, any])
}

/// The bytes before a question's pairs: with one command's mark, or with a span's.
pub fn head_bytes(mark: &[u8; 2], allowance: u32, span: CommandRange) -> Vec<u8> {
    let nothing = StateBox::default();
    match mark {
        b"QS" => question_bytes(allowance, span.least, &nothing, 0),
        _ => span_bytes(allowance, span, &nothing, 0),
    }
}

/// Which of a reading's numbers.
#[derive(Clone, Copy, Debug, PartialEq, Eq)]
pub enum Place {
    Value,
    Lower,
    Upper,
}

/// What a value and a pair's sides may not be.
#[derive(Clone, Copy, Debug, PartialEq, Eq)]
pub enum Bad {
    Nan,
    Infinite,
    Above,
    Below,
}

/// What is wrong with a variable's reading, or with the box that comes of it.
#[derive(Clone, Copy, Debug, PartialEq, Eq)]
pub enum Wrong {
    /// Refused by 18: kind 0, a kind from 3 on, or a slice that ends before it.
    KindZero,
    OtherKind,
    KindsEnd,
    ValuesEnd,
    /// Refused by 19.
    Number(Place, Bad),
    ToleranceNan,
    ToleranceInfinite,
    ToleranceBelow,
    ToleranceOver,
    Reversed,
    /// Refused by 15: a tolerance brings a side out of range.
    LowerSide,
    UpperSide,
}

/// All of them.
pub const WRONGS: [Wrong; 23] = [
    Wrong::KindZero,
    Wrong::OtherKind,
    Wrong::KindsEnd,
    Wrong::ValuesEnd,
    Wrong::Number(Place::Value, Bad::Nan),
    Wrong::Number(Place::Value, Bad::Infinite),
    Wrong::Number(Place::Value, Bad::Above),
    Wrong::Number(Place::Value, Bad::Below),
    Wrong::Number(Place::Lower, Bad::Nan),
    Wrong::Number(Place::Lower, Bad::Infinite),
    Wrong::Number(Place::Lower, Bad::Above),
    Wrong::Number(Place::Lower, Bad::Below),
    Wrong::Number(Place::Upper, Bad::Nan),
    Wrong::Number(Place::Upper, Bad::Infinite),
    Wrong::Number(Place::Upper, Bad::Above),
    Wrong::Number(Place::Upper, Bad::Below),
    Wrong::ToleranceNan,
    Wrong::ToleranceInfinite,
    Wrong::ToleranceBelow,
    Wrong::ToleranceOver,
    Wrong::Reversed,
    Wrong::LowerSide,
    Wrong::UpperSide,
];

impl Wrong {
    /// The refusal.
    pub fn number(self) -> u8 {
        match self {
            Wrong::KindZero | Wrong::OtherKind | Wrong::KindsEnd | Wrong::ValuesEnd => 18,
            Wrong::LowerSide | Wrong::UpperSide => 15,
            _ => 19,
        }
    }

    pub fn text(self) -> String {
        let what = match self {
            Wrong::KindZero => "kind 0",
            Wrong::OtherKind => "a kind from 3 on",
            Wrong::KindsEnd => "the kinds end",
            Wrong::ValuesEnd => "the values end",
            Wrong::Number(place, bad) => return number_text(place, bad),
            Wrong::ToleranceNan => "tolerance NaN",
            Wrong::ToleranceInfinite => "tolerance infinite",
            Wrong::ToleranceBelow => "tolerance below 0",
            Wrong::ToleranceOver => "tolerance over 1,000",
            Wrong::Reversed => "a reversed pair",
            Wrong::LowerSide => "a lower side out of range",
            Wrong::UpperSide => "an upper side out of range",
        };
        what.to_string()
    }

    /// Puts it at variable i; the readings before it stay.
    pub fn put(self, random: &mut Random, report: &mut Report, i: usize) {
        let floats = [any_float(random), any_float(random)];
        match self {
            Wrong::KindZero => report.put(i, 0, floats),
            Wrong::OtherKind => report.put(i, random.int(3, 255) as u8, floats),
            Wrong::KindsEnd => report.kinds.truncate(i),
            Wrong::ValuesEnd => report.values.truncate(2 * i + random.below(2)),
            Wrong::Number(place, bad) => put_number(random, report, i, place, bad),
            Wrong::Reversed => report.put(i, 2, reversed(random)),
            Wrong::LowerSide => report.put(i, 1, far_point(random, -1.0)),
            Wrong::UpperSide => report.put(i, 1, far_point(random, 1.0)),
            _ => {
                let value = accepted_value(random);
                report.put(i, 1, [value, self.tolerance(random)]);
            }
        }
    }

    /// A tolerance that is wrong in this way.
    fn tolerance(self, random: &mut Random) -> f32 {
        let size = float_of(random, Sort::Fraction).abs();
        match self {
            Wrong::ToleranceNan => float_of(random, Sort::Nan),
            Wrong::ToleranceInfinite => f32::INFINITY,
            Wrong::ToleranceBelow => {
                let tiny = float_of(random, Sort::Subnormal).abs();
                -random.pick(&[f32::from_bits(1), tiny, 0.5, 1.0, TOLERANCE, size])
            }
            _ => {
                let above = TOLERANCE.next_up();
                random.pick(&[above, above, 1_001.0, MAGNITUDE, f32::MAX, above + size])
            }
        }
    }
}

fn number_text(place: Place, bad: Bad) -> String {
    let place = match place {
        Place::Value => "value",
        Place::Lower => "lower",
        Place::Upper => "upper",
    };
    let bad = match bad {
        Bad::Nan => "NaN",
        Bad::Infinite => "infinite",
        Bad::Above => "over 1,000,000",
        Bad::Below => "below -1,000,000",
    };
    format!("{place} {bad}")
}

/// A value, or a pair's side, that is not refused.
fn accepted_value(random: &mut Random) -> f32 {
    loop {
        let value = any_float(random);
        if value.abs() <= MAGNITUDE {
            return value;
        }
    }
}

fn bad_number(random: &mut Random, bad: Bad) -> f32 {
    let beyond = float_of(random, Sort::Beyond).abs();
    let over = [MAGNITUDE.next_up(), MAGNITUDE + 1.0, f32::MAX, beyond];
    match bad {
        Bad::Nan => float_of(random, Sort::Nan),
        Bad::Infinite => float_of(random, Sort::Infinite),
        Bad::Above => random.pick(&over),
        Bad::Below => -random.pick(&over),
    }
}

/// Puts a reading with a bad number; its other number is not refused.
fn put_number(random: &mut Random, report: &mut Report, i: usize, place: Place, bad: Bad) {
    let (number, other) = (bad_number(random, bad), accepted_value(random));
    let ceiling = random.spread(1, WHOLE_TOLERANCE);
    match place {
        Place::Value => report.put(i, 1, [number, tolerance_of(random, ceiling)]),
        Place::Lower => report.put(i, 2, [number, other]),
        Place::Upper => report.put(i, 2, [other, number]),
    }
}

/// A reversed pair: of floats next to each other, between the same whole numbers, or of any.
fn reversed(random: &mut Random) -> [f32; 2] {
    let whole = random.signed_spread(1, WHOLE_MAGNITUDE - 1);
    let from = random.pick(&[whole, 0, -1]);
    let upper = with_floor(random, from);
    let mut lower = between(random, from);
    if random.percent(30) {
        lower = accepted_value(random);
    }
    if lower <= upper {
        lower = upper.next_up();
    }
    [lower, upper]
}

/// A value and a tolerance that bring the outer side on this sign's side out of range by at least 1.
fn far_point(random: &mut Random, sign: f32) -> [f32; 2] {
    let ceiling = random.spread(1, WHOLE_TOLERANCE);
    let any = random.range(0, ceiling - 1);
    let outer = WHOLE_MAGNITUDE - random.pick(&[0, ceiling - 1, any]);
    let size = with_ceiling(random, outer);
    [sign * size, tolerance_of(random, ceiling)]
}

/// A value and a tolerance that bring the outer side on this sign's side just to the limit.
pub fn point_at_limit(random: &mut Random, sign: f32) -> Reading {
    let ceiling = random.spread(1, WHOLE_TOLERANCE);
    let size = with_ceiling(random, WHOLE_MAGNITUDE - ceiling);
    Reading::Point {
        value: sign * size,
        tolerance: tolerance_of(random, ceiling),
    }
}

/// How a guard that rounds otherwise comes to a box.
#[derive(Clone, Copy, Debug, PartialEq, Eq)]
pub enum Rounding {
    /// Every float is rounded toward zero.
    TowardZero,
    /// Every float is rounded to the nearest whole number.
    ToNearest,
    /// A tolerance is rounded down.
    CeilingDropped,
    /// Values to the nearest, and tolerances down.
    NearestCeilingDropped,
    /// No tolerance is looked at.
    ToleranceDropped,
    /// A point's sides are rounded once, outward, behind the sum of value and tolerance.
    OfTheSum,
}

/// Those whose answers are counted in matching.
pub const ROUNDINGS: [Rounding; 4] = [
    Rounding::TowardZero,
    Rounding::ToNearest,
    Rounding::CeilingDropped,
    Rounding::OfTheSum,
];

impl Rounding {
    pub fn text(self) -> &'static str {
        match self {
            Rounding::TowardZero => "rounding toward zero",
            Rounding::ToNearest => "rounding to nearest",
            Rounding::CeilingDropped => "the tolerance rounded down",
            Rounding::NearestCeilingDropped => "the value to nearest, the tolerance down",
            Rounding::ToleranceDropped => "no tolerance",
            Rounding::OfTheSum => "rounding the sum",
        }
    }

    /// A float as lower and as upper side.
    fn rounded(self, x: f64) -> (f64, f64) {
        match self {
            Rounding::TowardZero => (x.trunc(), x.trunc()),
            Rounding::ToNearest | Rounding::NearestCeilingDropped => {
                (x.round_ties_even(), x.round_ties_even())
            }
            _ => (x.floor(), x.ceil()),
        }
    }

    fn tolerance(self, x: f64) -> f64 {
        match self {
            Rounding::TowardZero | Rounding::CeilingDropped | Rounding::NearestCeilingDropped => {
                x.floor()
            }
            Rounding::ToNearest => x.round_ties_even(),
            Rounding::ToleranceDropped => 0.0,
            Rounding::OfTheSum => x,
        }
    }

    /// The sides of a reading that is not refused.
    fn sides(self, reading: Reading) -> (f64, f64) {
        match reading {
            Reading::Point { value, tolerance } => {
                let (value, wider) = (f64::from(value), self.tolerance(tolerance.into()));
                if self == Rounding::OfTheSum {
                    return ((value - wider).floor(), (value + wider).ceil());
                }
                let (lower, upper) = self.rounded(value);
                (lower - wider, upper + wider)
            }
            Reading::Pair { lower, upper } => {
                (self.rounded(lower.into()).0, self.rounded(upper.into()).1)
            }
            Reading::Missing => unreachable!("a reading that is not refused"),
        }
    }

    /// The box of readings that are not refused.
    pub fn measured(self, readings: &[Reading]) -> StateBox {
        let mut sides = StateBox::default();
        for (i, &reading) in readings.iter().enumerate() {
            let (lower, upper) = self.sides(reading);
            (sides.lower[i], sides.upper[i]) = (lower as i64, upper as i64);
        }
        sides
    }
}
