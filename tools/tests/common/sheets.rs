//! Random sheets that the archive accepts.

use super::Numbers;
use second_guard::boxes::{StateBox, VARIABLES};
use second_guard::sheet::{Band, BandLaw, CommandRange, Kind, Row, Sheet};
use std::collections::BTreeMap;

fn random_range(numbers: &mut Numbers, least: i64, greatest: i64) -> (i64, i64) {
    let lower = numbers.whole(least, greatest);
    (lower, numbers.whole(lower, greatest))
}

fn random_commands(numbers: &mut Numbers, within: CommandRange) -> CommandRange {
    let (least, greatest) = (i64::from(within.least), i64::from(within.greatest));
    let (least, greatest) = random_range(numbers, least, greatest);
    CommandRange {
        least: least as i32,
        greatest: greatest as i32,
    }
}

fn random_box(numbers: &mut Numbers, n: usize, limit: i64) -> StateBox {
    let mut sides = StateBox::default();
    for i in 0..n {
        (sides.lower[i], sides.upper[i]) = random_range(numbers, -limit, limit);
        // Now and then a side at its limit.
        if numbers.whole(0, 3) == 0 {
            sides.lower[i] = -limit;
        }
        if numbers.whole(0, 3) == 0 {
            sides.upper[i] = limit;
        }
    }
    sides
}

/// A no-go box that shares a state with the recovery box, moved until it lies beside it in one variable.
fn beside(recovery: &StateBox, mut sides: StateBox, n: usize, numbers: &mut Numbers) -> StateBox {
    if !sides.meets(recovery) {
        return sides;
    }
    let i = numbers.whole(0, n as i64 - 1) as usize;
    let size = sides.upper[i] - sides.lower[i];
    if numbers.whole(0, 1) == 0 {
        sides.upper[i] = recovery.lower[i] - 1;
        sides.lower[i] = (sides.upper[i] - size).max(-2_000_000);
    } else {
        sides.lower[i] = recovery.upper[i] + 1;
        sides.upper[i] = (sides.lower[i] + size).min(2_000_000);
    }
    sides
}

/// No-go boxes that differ and keep clear of the recovery box, in ascending order; now and then with most of
/// their sides equal.
pub fn random_boxes(
    numbers: &mut Numbers,
    recovery: &StateBox,
    n: usize,
    count: usize,
) -> Vec<StateBox> {
    let limit = match numbers.whole(0, 1) {
        0 => 3,
        _ => 2_000_000,
    };
    let mut boxes = BTreeMap::new();
    while boxes.len() < count {
        let sides = random_box(numbers, n, limit);
        let sides = beside(recovery, sides, n, numbers);
        let pairs = sides.lower.into_iter().zip(sides.upper);
        boxes.insert(pairs.collect::<Vec<(i64, i64)>>(), sides);
    }
    boxes.into_values().collect()
}

/// Coefficients of n variables, now and then 0.
fn random_coefficients(numbers: &mut Numbers, n: usize) -> [i32; VARIABLES] {
    let mut coefficients = [0; VARIABLES];
    for coefficient in &mut coefficients[..n] {
        *coefficient = numbers.whole(-2, 2) as i32 * numbers.whole(1, 500) as i32;
    }
    coefficients
}

fn random_constant(numbers: &mut Numbers) -> i32 {
    numbers.whole(-1, 1) as i32 * numbers.whole(0, 100_000_000) as i32
}

fn random_law(numbers: &mut Numbers, n: usize) -> BandLaw {
    BandLaw {
        coefficients: random_coefficients(numbers, n),
        constant: random_constant(numbers),
        divisor: numbers.whole(1, 4_096) as i32,
    }
}

fn random_row(numbers: &mut Numbers, n: usize) -> Row {
    Row {
        a: random_coefficients(numbers, n),
        b: numbers.whole(-1_000, 1_000) as i32,
        c: random_constant(numbers),
        d: numbers.whole(0, 1) as i32 * numbers.whole(0, 100_000_000) as i32,
        q: numbers.whole(1, 4_096) as i32,
    }
}

fn random_band(numbers: &mut Numbers, kind: Kind, sheet: &Sheet, edge: i32) -> Band {
    let n = sheet.n();
    Band {
        edge,
        safety: random_commands(numbers, sheet.commands),
        law: match kind {
            Kind::Fixed => BandLaw::default(),
            Kind::Following => random_law(numbers, n),
        },
        rows: std::array::from_fn(|i| match i < n {
            true => random_row(numbers, n),
            false => Row::default(),
        }),
    }
}

/// A sheet of either kind with any number of variables.
pub fn random_sheet(numbers: &mut Numbers) -> Sheet {
    let kind = match numbers.whole(0, 1) {
        0 => Kind::Fixed,
        _ => Kind::Following,
    };
    let n = numbers.whole(1, VARIABLES as i64) as usize;
    let delta = numbers.whole(1, 999);
    let head = CommandRange {
        least: -10_000,
        greatest: 10_000,
    };
    let mut sheet = Sheet {
        variables: n as i32,
        band_count: numbers.whole(1, 8) as i32,
        unsafe_count: numbers.whole(1, 8) as i32,
        band_variable: numbers.whole(0, n as i64 - 1) as i32,
        delta: delta as i32,
        alpha: numbers.whole(1, 1_000 - delta) as i32,
        rho: numbers.whole(1, 1_000) as i32,
        commands: random_commands(numbers, head),
        recovery: random_box(numbers, n, 1_000_000),
        ..Sheet::default()
    };
    for cap in &mut sheet.caps[..n] {
        *cap = numbers.whole(1, 1_000) as i32;
    }
    for k in 0..sheet.band_count as usize {
        let edge = -2_000_000 + k as i32 * 400_000;
        sheet.bands[k] = random_band(numbers, kind, &sheet, edge);
    }
    let count = sheet.unsafe_count as usize;
    let boxes = random_boxes(numbers, &sheet.recovery, n, count);
    sheet.unsafe_boxes[..count].copy_from_slice(&boxes);
    sheet
}
