//! Cases of document 02's paper 1 worked by hand: what the drive reports about a variable in 32-bit
//! floats, the measured box, and what is refused.

use second_guard::boxes::VARIABLES;
use second_guard::decision::{decide, Decision};
use second_guard::readings::{
    decide_readings, decide_slices, measured_box, readings_of, rounded, sides, Reading,
};
use second_guard::sheet::Refusal;
use std::collections::BTreeSet;

const MISSING: u8 = 18;
const REFUSED: u8 = 19;

fn bits(pattern: u32) -> f32 {
    f32::from_bits(pattern)
}

/// The next float away from zero.
fn further(x: f32) -> f32 {
    bits(x.to_bits() + 1)
}

/// The next float toward zero.
fn nearer(x: f32) -> f32 {
    bits(x.to_bits() - 1)
}

fn point(value: f32, tolerance: f32) -> Reading {
    Reading::Point { value, tolerance }
}

fn pair(lower: f32, upper: f32) -> Reading {
    Reading::Pair { lower, upper }
}

/// The least float above 0, the greatest below it, and the ends of the subnormals.
const LEAST: u32 = 0x0000_0001;
const LAST_SUBNORMAL: u32 = 0x007f_ffff;
const FIRST_NORMAL: u32 = 0x0080_0000;
const SIGN: u32 = 0x8000_0000;

/// Patterns that are no number: infinities, and NaNs with least and greatest payloads, quiet and not.
const NO_NUMBERS: [u32; 8] = [
    0x7f80_0000,
    0xff80_0000,
    0x7f80_0001,
    0x7fbf_ffff,
    0x7fc0_0000,
    0x7fff_ffff,
    0xff80_0001,
    0xffff_ffff,
];

/// A number from 0 on, its floor and its ceiling.
type Rounded = (f32, i64, i64);

fn numbers() -> Vec<Rounded> {
    vec![
        (0.0, 0, 0),
        (bits(LEAST), 0, 1),
        (bits(LAST_SUBNORMAL), 0, 1),
        (bits(FIRST_NORMAL), 0, 1),
        (0.25, 0, 1),
        (0.5, 0, 1),
        (nearer(1.0), 0, 1),
        (1.0, 1, 1),
        (further(1.0), 1, 2),
        (1.5, 1, 2),
        (2.5, 2, 3),
        (nearer(1_000.0), 999, 1_000),
        (1_000.0, 1_000, 1_000),
        (further(1_000.0), 1_000, 1_001),
        (65_535.5, 65_535, 65_536),
        (524_287.97, 524_287, 524_288),
        (524_288.0, 524_288, 524_288),
        (524_288.06, 524_288, 524_289),
        (999_999.0, 999_999, 999_999),
        (999_999.5, 999_999, 1_000_000),
        (999_999.94, 999_999, 1_000_000),
        (1_000_000.0, 1_000_000, 1_000_000),
    ]
}

/// Numbers that are too large: the first one past the limit, and those around 2^22, where halves end,
/// 2^23, from which on all are whole, 2^24 and 2^31; the largest float.
fn too_large() -> Vec<f32> {
    let mut all = vec![1_000_000.1, 1_000_000.5, 1_000_001.0, f32::MAX];
    for whole in [22, 23, 24, 31, 63, 64].map(|power| 2_f32.powi(power)) {
        all.extend([nearer(whole), whole, further(whole)]);
    }
    all
}

#[test]
fn floors_and_ceilings() {
    assert_eq!(999_999.94, 999_999.937_5_f32);
    assert_eq!(nearer(1_000_000.0), 999_999.937_5);
    assert_eq!(further(1_000_000.0), 1_000_000.062_5);
    for (x, floor, ceil) in numbers() {
        assert_eq!(rounded(x, false), Some(floor), "{x}");
        assert_eq!(rounded(x, true), Some(ceil), "{x}");
        assert_eq!(rounded(-x, false), Some(-ceil), "-{x}");
        assert_eq!(rounded(-x, true), Some(-floor), "-{x}");
    }
    for x in too_large() {
        for x in [x, -x] {
            assert_eq!(rounded(x, false), None, "{x}");
            assert_eq!(rounded(x, true), None, "{x}");
        }
    }
    for pattern in NO_NUMBERS {
        assert_eq!(rounded(bits(pattern), false), None, "{pattern:08x}");
        assert_eq!(rounded(bits(pattern), true), None, "{pattern:08x}");
    }
}

/// The same by the larger floats of Rust.
fn by_larger_floats(x: f32, upper: bool) -> Option<i64> {
    let x = f64::from(x);
    let rounded = if upper { x.ceil() } else { x.floor() };
    (x.abs() <= 1e6).then_some(rounded as i64)
}

#[test]
fn patterns_over_all_floats() {
    let strided = (0..=u32::MAX).step_by(40_009);
    let around = (0..512).flat_map(|top: u32| {
        // where an exponent changes, with either sign
        let first = top << 23;
        (0..5).map(move |more| first.wrapping_sub(2).wrapping_add(more))
    });
    let mut seen = [0; 3];
    for x in strided.chain(around).map(f32::from_bits) {
        let down = rounded(x, false);
        assert_eq!(down, by_larger_floats(x, false), "{x}");
        assert_eq!(rounded(x, true), by_larger_floats(x, true), "{x}");
        let whole = down == rounded(x, true);
        seen[if down.is_none() {
            0
        } else {
            1 + usize::from(whole)
        }] += 1;
    }
    assert!(
        seen[0] > 40_000 && seen[1] > 60_000 && seen[2] > 1,
        "{seen:?}"
    );
}

/// A reading, and its sides or the number of the refusal.
type Worked = (Reading, Result<(i64, i64), u8>);

/// A value with its tolerance. The sides may be out of range: that is for 15.
fn worked_points() -> Vec<Worked> {
    let zero = bits(SIGN);
    vec![
        (point(0.0, 0.0), Ok((0, 0))),
        (point(zero, zero), Ok((0, 0))),
        (point(5.0, 0.0), Ok((5, 5))),
        (point(5.25, 0.0), Ok((5, 6))),
        (point(-5.25, 0.0), Ok((-6, -5))),
        (point(5.25, 0.5), Ok((4, 7))),
        (point(-5.25, 1.5), Ok((-8, -3))),
        (point(0.5, 0.5), Ok((-1, 2))),
        (point(bits(LEAST), bits(LEAST)), Ok((-1, 2))),
        (point(bits(SIGN + LEAST), zero), Ok((-1, 0))),
        (point(7.0, bits(LEAST)), Ok((6, 8))),
        (point(7.0, 1_000.0), Ok((-993, 1_007))),
        (point(7.0, nearer(1_000.0)), Ok((-993, 1_007))),
        (point(1_000_000.0, 0.0), Ok((1_000_000, 1_000_000))),
        (point(-1_000_000.0, 1.0), Ok((-1_000_001, -999_999))),
        (point(999_999.94, 1_000.0), Ok((998_999, 1_001_000))),
        (point(-1_000_000.0, 1_000.0), Ok((-1_001_000, -999_000))),
    ]
}

fn worked_pairs() -> Vec<Worked> {
    let zero = bits(SIGN);
    vec![
        (pair(0.0, zero), Ok((0, 0))),
        (pair(zero, 0.0), Ok((0, 0))),
        (pair(-1.5, 2.5), Ok((-2, 3))),
        (pair(2.25, 2.25), Ok((2, 3))),
        (pair(-2.25, -2.25), Ok((-3, -2))),
        (pair(bits(SIGN + LEAST), bits(LEAST)), Ok((-1, 1))),
        (pair(nearer(2.25), 2.25), Ok((2, 3))),
        (pair(further(-2.25), -2.25), Ok((-3, -2))),
        (pair(-1e6, 1e6), Ok((-1_000_000, 1_000_000))),
    ]
}

/// Readings that are refused by 19.
fn worked_refusals() -> Vec<Reading> {
    let (infinity, nan) = (f32::INFINITY, f32::NAN);
    let past = further(1_000_000.0);
    let below = bits(SIGN + LEAST);
    vec![
        point(7.0, further(1_000.0)),
        point(7.0, below),
        point(7.0, -0.5),
        point(7.0, -1.0),
        point(7.0, nan),
        point(7.0, infinity),
        point(7.0, -infinity),
        point(nan, 0.0),
        point(infinity, 0.0),
        point(past, 0.0),
        point(-past, 0.0),
        pair(2.25, nearer(2.25)),
        pair(-2.25, further(-2.25)),
        pair(bits(LEAST), 0.0),
        pair(0.0, below),
        pair(3.0, 2.0),
        pair(-past, 1e6),
        pair(-1e6, past),
        pair(nan, 0.0),
        pair(0.0, nan),
        pair(-infinity, 0.0),
        pair(0.0, infinity),
    ]
}

fn worked() -> Vec<Worked> {
    let refused = worked_refusals()
        .into_iter()
        .map(|reading| (reading, Err(REFUSED)))
        .collect();
    let missing = vec![(Reading::Missing, Err(MISSING))];
    [worked_points(), worked_pairs(), refused, missing].concat()
}

#[test]
fn readings_worked_by_hand() {
    for (reading, expected) in worked() {
        assert_eq!(sides(reading), expected, "{reading:?}");
    }
}

/// What a guard could do wrong with a reading.
#[derive(Clone, Copy, Debug, PartialEq, Eq)]
enum Mistake {
    TowardZero,
    ToNearest,
    ToleranceToNearest,
    ToleranceTowardZero,
    NoTolerance,
    ToleranceFirst,
    ToleranceTestedRounded,
    MinusZeroToleranceRefused,
    NoToleranceLimit,
    MagnitudeTestedRounded,
    NanIsZero,
    InfinityIsTheLimit,
    MissingIsZero,
    OrderTestedRounded,
    EqualPairRefused,
    NoOrder,
    MinusZeroBelowZero,
}

const MISTAKES: [Mistake; 17] = [
    Mistake::TowardZero,
    Mistake::ToNearest,
    Mistake::ToleranceToNearest,
    Mistake::ToleranceTowardZero,
    Mistake::NoTolerance,
    Mistake::ToleranceFirst,
    Mistake::ToleranceTestedRounded,
    Mistake::MinusZeroToleranceRefused,
    Mistake::NoToleranceLimit,
    Mistake::MagnitudeTestedRounded,
    Mistake::NanIsZero,
    Mistake::InfinityIsTheLimit,
    Mistake::MissingIsZero,
    Mistake::OrderTestedRounded,
    Mistake::EqualPairRefused,
    Mistake::NoOrder,
    Mistake::MinusZeroBelowZero,
];

/// A guard that takes Rust's larger floats, with a mistake or without.
struct ByFloats(Option<Mistake>);

impl ByFloats {
    fn makes(&self, mistake: Mistake) -> bool {
        self.0 == Some(mistake)
    }

    fn round(&self, x: f64, upper: bool) -> i64 {
        let rounded = if self.makes(Mistake::TowardZero) {
            x.trunc()
        } else if self.makes(Mistake::ToNearest) {
            x.round()
        } else if upper {
            x.ceil()
        } else {
            x.floor()
        };
        rounded as i64
    }

    /// The exact value of a number that is not too large.
    fn number(&self, x: f32) -> Result<f64, u8> {
        let x = f64::from(x);
        if x.is_nan() && self.makes(Mistake::NanIsZero) {
            return Ok(0.0);
        }
        if x.is_infinite() && self.makes(Mistake::InfinityIsTheLimit) {
            return Ok(x.signum() * 1e6);
        }
        let magnitude = if self.makes(Mistake::MagnitudeTestedRounded) {
            x.abs().floor()
        } else {
            x.abs()
        };
        if magnitude <= 1e6 {
            Ok(x)
        } else {
            Err(REFUSED)
        }
    }

    fn tolerance(&self, tolerance: f32) -> Result<i64, u8> {
        let exact = self.number(tolerance)?;
        let up = match self.0 {
            Some(Mistake::ToleranceToNearest) => exact.round(),
            Some(Mistake::ToleranceTowardZero) => exact.trunc(),
            Some(Mistake::NoTolerance) => 0.0,
            _ => exact.ceil(),
        };
        let below = if self.makes(Mistake::ToleranceTestedRounded) {
            exact.ceil() < 0.0
        } else if self.makes(Mistake::MinusZeroToleranceRefused) {
            exact.is_sign_negative()
        } else {
            exact < 0.0
        };
        let over = exact > 1_000.0 && !self.makes(Mistake::NoToleranceLimit);
        if below || over {
            Err(REFUSED)
        } else {
            Ok(up as i64)
        }
    }

    fn point(&self, value: f32, tolerance: f32) -> Result<(i64, i64), u8> {
        let (exact, wider) = (self.number(value)?, self.tolerance(tolerance)?);
        if self.makes(Mistake::ToleranceFirst) {
            let wider = f64::from(tolerance);
            return Ok((
                self.round(exact - wider, false),
                self.round(exact + wider, true),
            ));
        }
        Ok((
            self.round(exact, false) - wider,
            self.round(exact, true) + wider,
        ))
    }

    fn pair(&self, lower: f32, upper: f32) -> Result<(i64, i64), u8> {
        let (low, high) = (self.number(lower)?, self.number(upper)?);
        let sides = (self.round(low, false), self.round(high, true));
        let reversed = match self.0 {
            Some(Mistake::OrderTestedRounded) => sides.0 > sides.1,
            Some(Mistake::EqualPairRefused) => low >= high,
            Some(Mistake::NoOrder) => false,
            Some(Mistake::MinusZeroBelowZero) => low.total_cmp(&high).is_gt(),
            _ => low > high,
        };
        if reversed {
            Err(REFUSED)
        } else {
            Ok(sides)
        }
    }

    fn sides(&self, reading: Reading) -> Result<(i64, i64), u8> {
        match reading {
            Reading::Point { value, tolerance } => self.point(value, tolerance),
            Reading::Pair { lower, upper } => self.pair(lower, upper),
            Reading::Missing if self.makes(Mistake::MissingIsZero) => Ok((0, 0)),
            Reading::Missing => Err(MISSING),
        }
    }
}

#[test]
fn each_mistake_is_found_by_a_worked_reading() {
    let differs = |guard: ByFloats| move |(reading, said)| guard.sides(reading) != said;
    assert!(!worked().into_iter().any(differs(ByFloats(None))));
    for mistake in MISTAKES {
        let found = worked().into_iter().any(differs(ByFloats(Some(mistake))));
        assert!(found, "{mistake:?}");
    }
}

/// All floats that the cases above name, with either sign.
fn edges() -> Vec<f32> {
    let numbers = numbers().into_iter().map(|(x, ..)| x).chain(too_large());
    let both = numbers.flat_map(|x| [x, -x]);
    both.chain(NO_NUMBERS.map(bits)).collect()
}

#[test]
fn every_edge_beside_every_edge() {
    let (edges, right) = (edges(), ByFloats(None));
    let mut seen = [0; 2];
    for &one in &edges {
        for &other in &edges {
            for reading in [point(one, other), pair(one, other)] {
                let said = sides(reading);
                assert_eq!(said, right.sides(reading), "{reading:?}");
                seen[usize::from(said.is_ok())] += 1;
            }
        }
    }
    assert!(seen[0] > 5_000 && seen[1] > 1_500, "{seen:?}");
}

/// Whole numbers of quarters from least to greatest.
fn quarters(least: i64, greatest: i64) -> impl Iterator<Item = (i64, f32)> {
    (least..=greatest).map(|quarters| (quarters, quarters as f32 / 4.0))
}

/// The sides hold each number from so many quarters to so many, the whole ones among them.
fn holds(said: Result<(i64, i64), u8>, least: i64, greatest: i64) -> bool {
    let (lower, upper) = said.expect("a reading that is not refused");
    (least..=greatest).all(|x| 4 * lower <= x && x <= 4 * upper)
}

#[test]
fn a_box_holds_all_that_its_reading_allows() {
    for (value, x) in quarters(-33, 33) {
        for (tolerance, t) in quarters(0, 21) {
            let said = sides(point(x, t));
            assert!(holds(said, value - tolerance, value + tolerance), "{x} {t}");
            let up = -(-tolerance).div_euclid(4);
            let exact = (value.div_euclid(4) - up, -(-value).div_euclid(4) + up);
            assert_eq!(said, Ok(exact), "{x} {t}");
        }
        for (upper, y) in quarters(value, 33) {
            let said = sides(pair(x, y));
            assert!(holds(said, value, upper), "{x} {y}");
            let exact = (value.div_euclid(4), -(-upper).div_euclid(4));
            assert_eq!(said, Ok(exact), "{x} {y}");
        }
        for (_, y) in quarters(-33, value - 1) {
            assert_eq!(sides(pair(x, y)), Err(REFUSED), "{x} {y}");
        }
    }
}

#[test]
fn wrong_rounding_loses_a_number_that_was_meant() {
    let loses = |guard: ByFloats| {
        quarters(-9, 9).any(|(value, x)| {
            quarters(0, 9).any(|(tolerance, t)| {
                !holds(
                    guard.sides(point(x, t)),
                    value - tolerance,
                    value + tolerance,
                )
            })
        })
    };
    assert!(!loses(ByFloats(None)));
    for mistake in [
        Mistake::TowardZero,
        Mistake::ToNearest,
        Mistake::NoTolerance,
        Mistake::ToleranceToNearest,
        Mistake::ToleranceTowardZero,
    ] {
        assert!(loses(ByFloats(Some(mistake))), "{mistake:?}");
    }
}

// ---- decisions

fn integers(values: &[i32]) -> Vec<u8> {
    values.iter().flat_map(|x| x.to_be_bytes()).collect()
}

/// A sheet of n variables, each like document 01's sheet A, with two no-go boxes.
fn sheet_of(n: usize) -> Vec<u8> {
    let sides = |mark: &[u8], pair: [i32; 2]| [mark, &integers(&pair).repeat(n)].concat();
    let mut bytes = [b'S', b'H', n as u8, 1, 2, 0, 0, 4, 0, 4, 0, 4].to_vec();
    bytes.extend(integers(&[-25, 25]));
    bytes.extend([0, 5].repeat(n));
    bytes.extend([b"BD", &integers(&[-2_000_000, 0, 0])[..]].concat());
    for i in 0..n {
        bytes.extend((0..n).flat_map(|j| if i == j { [255, 255] } else { [0, 0] }));
        bytes.extend([&[0, 4], &integers(&[0, 0])[..], &[0, 20]].concat());
    }
    bytes.extend(sides(b"NG", [130, 2_000_000]));
    bytes.extend(sides(b"NG", [131, 2_000_000]));
    bytes.extend(sides(b"RC", [-100, 100]));
    bytes
}

/// The bytes before a question's pairs.
fn head(allowance: u32, commands: &[i32]) -> Vec<u8> {
    let mark = if commands.len() == 1 { b"QS" } else { b"QR" };
    let allowance = allowance.to_be_bytes();
    [&mark[..], &allowance, &integers(commands)].concat()
}

fn number(decision: Decision) -> u8 {
    match decision {
        Decision::Refused(refusal) => refusal.number(),
        _ => 0,
    }
}

/// Other bytes at a place of the sheet of two variables, and the refusal. That of 5 adds a byte; that
/// of 20 is a second box below the first, that of 22 a recovery box up to 200.
fn damages() -> Vec<(u8, usize, Vec<u8>)> {
    vec![
        (1, 0, b"XH".to_vec()),
        (2, 5, vec![2]),
        (3, 10, vec![0, 0]),
        (4, 16, integers(&[10_001])),
        (5, 0, Vec::new()),
        (6, 20, vec![0, 0]),
        (7, 24, b"NG".to_vec()),
        (8, 26, integers(&[0])),
        (9, 30, integers(&[1])),
        (10, 52, vec![0, 0]),
        (11, 72, integers(&[2_000_001])),
        (20, 90, integers(&[129])),
        (22, 108, integers(&[-100, 200, -100, 200])),
    ]
}

fn damaged((number, at, new): &(u8, usize, Vec<u8>)) -> Vec<u8> {
    let mut bytes = sheet_of(2);
    bytes[*at..at + new.len()].copy_from_slice(new);
    if *number == 5 {
        bytes.push(0);
    }
    bytes
}

/// A cause, and for 18 and 19 its variable.
type Cause = (u8, usize);

/// The sheet of two variables as it should be and with each damage, and the cause.
fn sheets() -> Vec<(Vec<u8>, Vec<Cause>)> {
    let mut all = vec![(sheet_of(2), Vec::new())];
    for damage in damages() {
        all.push((damaged(&damage), vec![(damage.0, 0)]));
    }
    all
}

/// Heads of both marks with each choice of a wrong length, allowance and command.
fn heads() -> Vec<(Vec<u8>, Vec<Cause>)> {
    let mut all = Vec::new();
    let commands: [(&[i32], bool); 6] = [
        (&[25], false),
        (&[26], true),
        (&[-26], true),
        (&[-25, 25], false),
        (&[1, 0], true),
        (&[0, 26], true),
    ];
    for (commands, bad_command) in commands {
        for allowance in [100, 1_000_001] {
            for short in [false, true] {
                let mut bytes = head(allowance, commands);
                bytes.truncate(bytes.len() - usize::from(short));
                let causes = [(12, short), (13, allowance > 100), (14, bad_command)];
                let causes = causes.into_iter().filter(|cause| cause.1);
                all.push((bytes, causes.map(|cause| (cause.0, 0)).collect()));
            }
        }
    }
    all
}

/// Readings of two variables with each choice of what is wrong with either. A box out of range is
/// found behind both.
fn both_readings() -> Vec<([Reading; 2], Vec<Cause>)> {
    let choices = [
        (point(3.25, 0.5), 0),
        (Reading::Missing, MISSING),
        (point(f32::NAN, 0.0), REFUSED),
        (pair(2.5, 2.25), REFUSED),
        (point(-1_000_000.0, 1.0), 15),
    ];
    let mut all = Vec::new();
    for (one, first) in choices {
        for (other, second) in choices {
            let mut causes: Vec<Cause> = [(first, 0), (second, 1)].to_vec();
            causes.retain(|cause| cause.0 == MISSING || cause.0 == REFUSED);
            if first == 15 || second == 15 {
                causes.push((15, 0));
            }
            all.push(([one, other], causes));
        }
    }
    all
}

#[test]
fn the_order_of_refusals() {
    let mut pairs = BTreeSet::new();
    let mut alone = BTreeSet::new();
    for (sheet, of_sheet) in sheets() {
        for (head, of_head) in heads() {
            for (readings, of_readings) in both_readings() {
                let causes = [&of_sheet[..], &of_head, &of_readings].concat();
                let expected = causes.first().map_or(0, |cause| cause.0);
                let given = number(decide_readings(&sheet, &head, &readings));
                assert_eq!(given, expected, "{causes:?}");
                let later = causes.iter().skip(1);
                pairs.extend(later.map(|&later| (causes[0], later)));
                alone.extend((causes.len() == 1).then(|| causes[0]));
            }
        }
    }
    // the 13 numbers of a sheet, 12, 13, 14, 18 and 19 of either variable, and 15
    assert_eq!(alone.len(), 13 + 3 + 4 + 1);
    // each cause beside each later one: variable 1 has one behind each of variable 0's
    let expected = 13 * 8 + 7 + 6 + 5 + 2 * 3 + 2;
    assert_eq!(pairs.len(), expected);
}

#[test]
fn heads_that_are_no_head() {
    let readings = [point(0.0, 0.0); 2];
    let (sheet, one, two) = (sheet_of(2), head(100, &[25]), head(100, &[-25, 25]));
    let refused = |head: &[u8]| number(decide_readings(&sheet, head, &readings));
    for whole in [&one, &two] {
        assert_eq!(refused(whole), 0);
        for length in 0..whole.len() {
            assert_eq!(refused(&whole[..length]), 12, "{length}");
        }
        for more in 1..=16 {
            let longer = [&whole[..], &vec![0; more]].concat();
            assert_eq!(refused(&longer), 12, "{more}");
        }
        for mark in 0..=u16::MAX {
            let mark = mark.to_be_bytes();
            let marked = [&mark[..], &whole[2..]].concat();
            let known = mark == whole[..2];
            assert_eq!(refused(&marked), if known { 0 } else { 12 }, "{mark:?}");
        }
    }
}

#[test]
fn allowances_and_commands_of_a_head() {
    let sheet = sheet_of(1);
    let refused = |head: &[u8]| number(decide_readings(&sheet, head, &[point(0.0, 0.0)]));
    assert_eq!(refused(&head(1_000_000, &[0])), 0);
    assert_eq!(refused(&head(1_000_001, &[0])), 13);
    assert_eq!(refused(&head(u32::MAX, &[0, 0])), 13);
    for (least, greatest, expected) in [
        (-25, 25, 0),
        (-26, 25, 14),
        (-25, 26, 14),
        (1, 0, 14),
        (3, 3, 0),
    ] {
        assert_eq!(refused(&head(0, &[least, greatest])), expected);
    }
    for (command, expected) in [(-26, 14), (-25, 0), (25, 0), (26, 14)] {
        assert_eq!(refused(&head(0, &[command])), expected);
    }
}

#[test]
fn the_first_variable_that_is_refused_decides() {
    let (fine, bad) = (point(1.5, 0.25), pair(1.0, 0.0));
    let choices = [(fine, 0), (Reading::Missing, MISSING), (bad, REFUSED)];
    for code in 0..3_usize.pow(6) {
        let chosen = (0..6).map(|i| choices[code / 3_usize.pow(i) % 3]);
        let readings: Vec<Reading> = chosen.clone().map(|choice| choice.0).collect();
        for n in 1..=VARIABLES {
            let mut numbers = chosen.clone().take(n).map(|choice| choice.1);
            let expected = numbers.find(|&number| number > 0).unwrap_or(0);
            let decision = decide_readings(&sheet_of(n), &head(100, &[25]), &readings);
            assert_eq!(number(decision), expected, "{code} {n}");
            let measured = measured_box(&readings[..n]);
            assert_eq!(measured.err().unwrap_or(0), expected, "{code} {n}");
        }
    }
}

#[test]
fn a_box_out_of_range_is_15() {
    let refused =
        |readings: &[Reading]| number(decide_readings(&sheet_of(2), &head(0, &[0, 0]), readings));
    let fine = point(0.0, 0.0);
    for (reading, expected) in [
        (point(1_000_000.0, 0.0), 0),
        (point(1_000_000.0, bits(SIGN)), 0),
        (point(1_000_000.0, bits(LEAST)), 15),
        (point(999_999.0, 1.0), 0),
        (point(999_999.06, 1.0), 15),
        (point(-1_000_000.0, 1.0), 15),
        (point(-999_999.94, 0.5), 15),
        (point(-999_000.0, 1_000.0), 0),
        (point(-999_000.06, 1_000.0), 15),
        (pair(-1_000_000.0, 1_000_000.0), 0),
        (pair(-1_000_000.1, 0.0), REFUSED),
    ] {
        assert_eq!(refused(&[reading, fine]), expected, "{reading:?}");
        assert_eq!(refused(&[fine, reading]), expected, "{reading:?}");
    }
}

// ---- a call's slices

/// Three variables: a point, a pair, a point.
const KINDS: [u8; 3] = [1, 2, 1];
const VALUES: [f32; 6] = [1.25, 0.5, -3.5, 4.5, 20.0, 1.0];

#[test]
fn slices_of_readings() {
    let said = measured_box(&readings_of(3, &KINDS, &VALUES));
    assert_eq!(said, Ok(vec![(0, 3), (-4, 5), (19, 21)]));
    let question = integers(&[0, 3, -4, 5, 19, 21]);
    for head in [head(100, &[25]), head(100, &[-3, 4])] {
        let by_bytes = decide(&sheet_of(3), &[&head[..], &question].concat());
        let by_slices = decide_slices(&sheet_of(3), &head, &KINDS, &VALUES);
        assert_eq!(by_slices, by_bytes);
        assert_eq!(number(by_slices), 0);
    }
}

fn refused_slices(kinds: &[u8], values: &[f32]) -> u8 {
    number(decide_slices(
        &sheet_of(3),
        &head(100, &[25]),
        kinds,
        values,
    ))
}

#[test]
fn slices_that_are_too_short() {
    // what lies beyond n is not looked at
    let kinds = [&KINDS[..], &[0, 9, 255]].concat();
    let values = [&VALUES[..], &[f32::NAN; 9]].concat();
    for kinds_length in 0..=kinds.len() {
        for values_length in 0..=values.len() {
            let reached = kinds_length.min(values_length / 2);
            let (kinds, values) = (&kinds[..kinds_length], &values[..values_length]);
            let expected = if reached < 3 { MISSING } else { 0 };
            assert_eq!(refused_slices(kinds, values), expected);
            // a reading that is refused, in each variable: it counts where it is reached
            for i in 0..(values_length / 2).min(3) {
                let mut other = values.to_vec();
                other[2 * i] = f32::INFINITY;
                let expected = if i < reached { REFUSED } else { expected };
                assert_eq!(refused_slices(kinds, &other), expected);
            }
        }
    }
}

#[test]
fn kinds_that_are_no_reading() {
    for kind in 0..=u8::MAX {
        let known = kind == 1 || kind == 2;
        for i in 0..3 {
            let mut kinds = KINDS;
            kinds[i] = kind;
            // 0.5, 0.5 is a point and a pair
            let mut values = VALUES;
            values[2 * i..2 * i + 2].fill(0.5);
            let expected = if known { 0 } else { MISSING };
            assert_eq!(refused_slices(&kinds, &values), expected, "{kind}");
            // no number of a missing reading is looked at
            values[2 * i] = f32::NAN;
            let expected = if known { REFUSED } else { MISSING };
            assert_eq!(refused_slices(&kinds, &values), expected, "{kind}");
        }
    }
}

#[test]
fn readings_that_a_slice_does_not_have_are_missing() {
    let readings = [point(0.0, 0.0); VARIABLES + 1];
    for n in 1..=VARIABLES {
        for count in 0..=readings.len() {
            let decision = decide_readings(&sheet_of(n), &head(100, &[25]), &readings[..count]);
            let expected = if count < n { MISSING } else { 0 };
            assert_eq!(number(decision), expected, "{n} {count}");
        }
    }
}

// ---- beside the same question in bytes

/// Numbers that only look random.
struct Numbers(u64);

impl Numbers {
    fn between(&mut self, least: i32, greatest: i32) -> i32 {
        let step = self.0.wrapping_mul(6_364_136_223_846_793_005);
        self.0 = step.wrapping_add(1_442_695_040_888_963_407);
        least + ((self.0 >> 33) % (greatest - least + 1) as u64) as i32
    }

    fn eighths(&mut self, least: i32, greatest: i32) -> f32 {
        self.between(8 * least, 8 * greatest) as f32 / 8.0
    }

    /// Mostly near what the machine comes back from, seldom refused.
    fn reading(&mut self) -> Reading {
        match self.between(0, 99) {
            0 => Reading::Missing,
            1 => pair(2.5, 2.25),
            2 => point(999_999.5, self.eighths(0, 1)),
            3..=50 => point(self.eighths(-130, 130), self.eighths(0, 12)),
            _ => {
                let lower = self.eighths(-130, 130);
                pair(lower, lower + self.eighths(0, 20))
            }
        }
    }

    fn head(&mut self) -> Vec<u8> {
        let allowance = [2, 30, 1_000_000][self.between(0, 2) as usize];
        let least = self.between(-25, 25);
        let greatest = self.between(least, 25);
        let commands = [least, greatest];
        head(allowance, &commands[..self.between(1, 2) as usize])
    }
}

/// The answer of the same question in bytes, or the number of a reading's refusal.
fn by_bytes(sheet: &[u8], head: &[u8], readings: &[Reading]) -> Result<Decision, u8> {
    let mut question = head.to_vec();
    for &reading in readings {
        let (lower, upper) = ByFloats(None).sides(reading)?;
        question.extend(integers(&[lower as i32, upper as i32]));
    }
    Ok(decide(sheet, &question))
}

#[test]
fn the_answer_is_that_of_the_boxs_bytes() {
    let numbers = &mut Numbers(1);
    // keep, finest, spent, 15, 18, 19
    let mut seen = [0; 6];
    for turn in 0..6_000 {
        let n = 1 + turn % VARIABLES;
        let readings: Vec<Reading> = (0..n).map(|_| numbers.reading()).collect();
        let (sheet, head) = (sheet_of(n), numbers.head());
        let given = decide_readings(&sheet, &head, &readings);
        match by_bytes(&sheet, &head, &readings) {
            Ok(expected) => assert_eq!(given, expected, "{readings:?}"),
            Err(expected) => assert_eq!(number(given), expected, "{readings:?}"),
        }
        let kind = match given {
            Decision::Keep { .. } => 0,
            Decision::Finest { .. } => 1,
            Decision::Spent { .. } => 2,
            Decision::Refused(Refusal::Start) => 3,
            Decision::Refused(Refusal::Missing) => 4,
            Decision::Refused(refusal) => {
                assert_eq!(refusal, Refusal::Reading);
                5
            }
        };
        seen[kind] += 1;
    }
    assert!(seen.iter().all(|&count| count > 60), "{seen:?}");
}
