//! The machine on a sheet: bands, divisions, the plain commands and the allowed changes.
//! Every change is divided and then clamped, as document 01 says it; paper 6 of document
//! 02, which compares first, changes no answer (READINGS.md, 13).

use crate::sheet::{band_mark, Band, Sheet};

/// p / q rounded down, q at least 1.
pub fn floor_div(p: i64, q: i64) -> i64 {
    if p % q < 0 {
        p / q - 1
    } else {
        p / q
    }
}

/// p / q rounded up, q at least 1.
pub fn ceil_div(p: i64, q: i64) -> i64 {
    if p % q > 0 {
        p / q + 1
    } else {
        p / q
    }
}

/// y clamped to least..greatest.
pub fn clamp_to(y: i64, least: i64, greatest: i64) -> i64 {
    if y < least {
        least
    } else if y > greatest {
        greatest
    } else {
        y
    }
}

/// y clamped to -cap..cap.
pub fn clamp(y: i64, cap: i64) -> i64 {
    clamp_to(y, -cap, cap)
}

/// The least allowed change: floor((N - d)/q), clamped.
pub fn least_change(big_n: i64, d: i64, q: i64, cap: i64) -> i64 {
    clamp(floor_div(big_n - d, q), cap)
}

/// The greatest allowed change: ceil((N + d)/q), clamped.
pub fn greatest_change(big_n: i64, d: i64, q: i64, cap: i64) -> i64 {
    clamp(ceil_div(big_n + d, q), cap)
}

/// Does some value of lower..upper lie in band k (from 0)? The band runs from
/// its edge up to just below the next edge, the last without end.
pub fn meets_band(sheet: &Sheet, k: usize, lower: i64, upper: i64) -> bool {
    if upper < sheet.band[k].edge as i64 {
        return false;
    }
    if k + 1 < sheet.bands as usize {
        let next_edge = sheet.band[k + 1].edge as i64;
        if lower > next_edge - 1 {
            return false;
        }
    }
    true
}

/// The band (from 0) of a value of the band variable; none below the first edge.
pub fn band_of(sheet: &Sheet, value: i64) -> Option<usize> {
    for k in 0..sheet.bands as usize {
        if meets_band(sheet, k, value, value) {
            return Some(k);
        }
    }
    None
}

/// The floor of sum / divisor, clamped to the band's safety range.
pub fn least_command(sum: i64, band: &Band) -> i64 {
    clamp_to(
        floor_div(sum, band.law.divisor as i64),
        band.safety_least as i64,
        band.safety_greatest as i64,
    )
}

/// The ceil of sum / divisor, clamped to the band's safety range.
pub fn greatest_command(sum: i64, band: &Band) -> i64 {
    clamp_to(
        ceil_div(sum, band.law.divisor as i64),
        band.safety_least as i64,
        band.safety_greatest as i64,
    )
}

/// Least and greatest plain command at one state: of a band marked `BD` the safety range,
/// of one marked `BF` from floor to ceil of (sum of coefficient * x + constant) / divisor,
/// clamped to the safety range (document 02, paper 9).
pub fn plain_commands(sheet: &Sheet, state: &[i64]) -> Option<(i64, i64)> {
    let k = band_of(sheet, state[sheet.band_variable as usize])?;
    let band = &sheet.band[k];
    if band_mark(sheet) == *b"BD" {
        return Some((band.safety_least as i64, band.safety_greatest as i64));
    }
    let mut sum = band.law.constant as i64;
    for j in 0..sheet.n as usize {
        sum += band.law.coefficients[j] as i64 * state[j];
    }
    Some((least_command(sum, band), greatest_command(sum, band)))
}

/// The allowed changes of variable i at one state under one command.
pub fn allowed_change(sheet: &Sheet, state: &[i64], i: usize, u: i64) -> Option<(i64, i64)> {
    let k = band_of(sheet, state[sheet.band_variable as usize])?;
    let row = &sheet.band[k].rows[i];
    let mut big_n = row.b as i64 * u + row.c as i64;
    for j in 0..sheet.n as usize {
        big_n += row.a[j] as i64 * state[j];
    }
    let (d, q, cap) = (row.d as i64, row.q as i64, sheet.caps[i] as i64);
    Some((
        least_change(big_n, d, q, cap),
        greatest_change(big_n, d, q, cap),
    ))
}
