//! The archive of the crate `readings_c` against Rust's floors and ceilings and against the second guard,
//! which works from a float's bits: a sample of patterns, and with `--all` each of the 2^32 once, over
//! all cores. It prints how many floats of each kind it saw and how many sides of each, and fails where
//! a side differs or a kind was not seen. The last line is `N passed, M failed`.

use matching::archive::readings_archive::{side, side_at};
use second_guard::readings::rounded;
use std::thread;

/// The greatest magnitude of a reading, and that of a tolerance.
const LIMIT: f32 = 1_000_000.0;
const TOLERANCE_LIMIT: f32 = 1_000.0;

const SIGN: u32 = 1 << 31;
const FRACTION_BITS: u32 = 23;
/// The bit of a NaN that makes it quiet.
const QUIET: u32 = 1 << (FRACTION_BITS - 1);

/// Every pattern so many apart is in the sample, those so near to an exponent's first one, and those so
/// near to a number where something changes.
const STRIDE: usize = 509;
const NEAR_EXPONENT: u32 = 8;
const NEAR_NUMBER: u32 = 64;
/// The whole numbers and halves up to here are in the sample, with the floats around them.
const WHOLE: i32 = 2_050;

/// Faces besides 0 and 1, which count as 1.
const OTHER_FACES: [u32; 4] = [2, 256, SIGN, u32::MAX];

/// The differences that are printed in full.
const SHOWN: usize = 10;

/// The kinds of floats; those of negative ones stand behind the others.
const KINDS: [&str; 9] = [
    "zero",
    "subnormal",
    "fraction below 1",
    "fraction from 1 on",
    "whole number",
    "magnitude over 1,000,000",
    "infinity",
    "quiet NaN",
    "signaling NaN",
];

fn kind(x: f32) -> usize {
    if x.is_nan() {
        7 + usize::from(x.to_bits() & QUIET == 0)
    } else if x.is_infinite() {
        6
    } else if x.abs() > LIMIT {
        5
    } else if x == 0.0 {
        0
    } else if x.is_subnormal() {
        1
    } else if x.fract() == 0.0 {
        4
    } else {
        2 + usize::from(x.abs() > 1.0)
    }
}

/// The kinds of sides.
const SIDES: [&str; 4] = [
    "floor below its float",
    "ceiling above its float",
    "side equal to its float",
    "refused side",
];

fn kind_of_side(x: f32, upper: bool, side: Option<i64>) -> usize {
    match side {
        None => 3,
        Some(side) if side as f64 == f64::from(x) => 2,
        Some(_) => usize::from(upper),
    }
}

/// The side by Rust's own floats.
fn by_rust(x: f32, upper: bool) -> Option<i64> {
    let rounded = if upper { x.ceil() } else { x.floor() };
    (-LIMIT..=LIMIT).contains(&x).then_some(rounded as i64)
}

/// What was seen.
#[derive(Default)]
struct Seen {
    /// By sign and kind.
    floats: [[u64; KINDS.len()]; 2],
    wrong_floats: [[u64; KINDS.len()]; 2],
    sides: [u64; SIDES.len()],
    wrong_sides: [u64; SIDES.len()],
    /// The first patterns with a wrong side.
    shown: Vec<u32>,
}

impl Seen {
    /// Compares both sides of a pattern.
    #[inline]
    fn compare(&mut self, pattern: u32) {
        let x = f32::from_bits(pattern);
        let mut right = true;
        for upper in [false, true] {
            let said = side(x, upper);
            let expected = by_rust(x, upper);
            let alike = said == expected && rounded(x, upper) == expected;
            let kind = kind_of_side(x, upper, expected);
            self.sides[kind] += 1;
            self.wrong_sides[kind] += u64::from(!alike);
            right &= alike;
        }
        let (sign, kind) = ((pattern >> 31) as usize, kind(x));
        self.floats[sign][kind] += 1;
        if !right {
            self.wrong_floats[sign][kind] += 1;
            if self.shown.len() < SHOWN {
                self.shown.push(pattern);
            }
        }
    }

    fn compare_all(patterns: impl Iterator<Item = u32>) -> Seen {
        let mut seen = Seen::default();
        patterns.for_each(|pattern| seen.compare(pattern));
        seen
    }

    fn add(&mut self, other: Seen) {
        for sign in 0..2 {
            for kind in 0..KINDS.len() {
                self.floats[sign][kind] += other.floats[sign][kind];
                self.wrong_floats[sign][kind] += other.wrong_floats[sign][kind];
            }
        }
        for kind in 0..SIDES.len() {
            self.sides[kind] += other.sides[kind];
            self.wrong_sides[kind] += other.wrong_sides[kind];
        }
        self.shown.extend(other.shown);
        self.shown.truncate(SHOWN);
    }

    fn total(&self) -> u64 {
        self.floats.iter().flatten().sum()
    }

    /// Prints all kinds; which of them were seen and right.
    fn print(&self) -> Vec<bool> {
        for &pattern in &self.shown {
            show(pattern);
        }
        let mut passed = Vec::new();
        for (sign, word) in ["", "negative "].into_iter().enumerate() {
            for (kind, name) in KINDS.into_iter().enumerate() {
                let (seen, wrong) = (self.floats[sign][kind], self.wrong_floats[sign][kind]);
                passed.push(line(&format!("{word}{name}"), seen, wrong));
            }
        }
        for (kind, name) in SIDES.into_iter().enumerate() {
            passed.push(line(name, self.sides[kind], self.wrong_sides[kind]));
        }
        passed
    }
}

/// Prints what is said of a pattern.
fn show(pattern: u32) {
    let x = f32::from_bits(pattern);
    for upper in [false, true] {
        println!(
            "WRONG {pattern:08x} ({x:e}), upper {upper}: archive {:?}, Rust {:?}, second guard {:?}",
            side(x, upper),
            by_rust(x, upper),
            rounded(x, upper)
        );
    }
}

/// Prints a kind; whether it was seen and right.
fn line(name: &str, seen: u64, wrong: u64) -> bool {
    let verdict = match (seen, wrong) {
        (_, 1..) => "WRONG",
        (0, _) => "NOT SEEN",
        _ => "ok",
    };
    println!("{name:<34} {seen:>10} seen, {wrong:>10} wrong  {verdict}");
    verdict == "ok"
}

/// The patterns at most so far from this one, with either sign.
fn near(pattern: u32, distance: u32) -> impl Iterator<Item = u32> {
    let first = (pattern & !SIGN).wrapping_sub(distance);
    (0..=2 * distance).flat_map(move |more| {
        let near = first.wrapping_add(more);
        [near, near ^ SIGN]
    })
}

/// The sample. A stride that is odd comes to every exponent and to fractions of every form.
fn sample() -> impl Iterator<Item = u32> {
    let strided = (0..=u32::MAX).step_by(STRIDE);
    let exponents = (0..1 << 8).flat_map(|exponent| near(exponent << FRACTION_BITS, NEAR_EXPONENT));
    let whole = (0..2 * WHOLE).flat_map(|halves| near((halves as f32 / 2.0).to_bits(), 2));
    let changes = [TOLERANCE_LIMIT, LIMIT, 999_999.0, 999_999.5, 1_000_001.0];
    let changes = changes
        .into_iter()
        .flat_map(|x| near(x.to_bits(), NEAR_NUMBER));
    let nan = f32::INFINITY.to_bits();
    let payloads = (0..FRACTION_BITS).flat_map(move |bit| near(nan + (1 << bit), 1));
    strided
        .chain(exponents)
        .chain(whole)
        .chain(changes)
        .chain(payloads)
}

/// Each pattern once, by as many threads as there are cores.
fn all() -> Seen {
    let threads = thread::available_parallelism().map_or(1, |count| count.get() as u64);
    let patterns = 1_u64 << 32;
    thread::scope(|scope| {
        let running: Vec<_> = (0..threads)
            .map(|part| {
                let range = patterns * part / threads..patterns * (part + 1) / threads;
                scope.spawn(|| Seen::compare_all(range.map(|pattern| pattern as u32)))
            })
            .collect();
        let mut seen = Seen::default();
        for part in running {
            seen.add(part.join().expect("a part that has ended"));
        }
        seen
    })
}

/// Any face but 0 has the ceiling: over the sample.
fn other_faces() -> bool {
    let (mut seen, mut wrong) = (0, 0);
    for x in sample().map(f32::from_bits) {
        for face in OTHER_FACES {
            seen += 1;
            wrong += u64::from(side_at(x, face) != by_rust(x, true));
        }
    }
    line("ceiling by another face than 1", seen, wrong)
}

fn main() {
    let every = match std::env::args().nth(1).as_deref() {
        None => false,
        Some("--all") => true,
        Some(_) => {
            eprintln!("usage: floats [--all]");
            std::process::exit(2);
        }
    };
    let seen = if every {
        all()
    } else {
        Seen::compare_all(sample())
    };
    let mut passed = seen.print();
    passed.push(other_faces());
    println!("{} patterns", seen.total());
    if every {
        passed.push(seen.total() == 1 << 32);
    }
    let failed = passed.iter().filter(|&&passed| !passed).count();
    println!("{} passed, {failed} failed", passed.len() - failed);
    std::process::exit(i32::from(failed > 0));
}
