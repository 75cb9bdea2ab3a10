//! One lifted step, and the reach.

use crate::machine::{greatest_change, greatest_command, least_change, least_command, meets_band};
use crate::sheet::{band_mark, test_command, test_values, Sheet, Sides};

/// n pairs of lower and upper side.
pub type StateBox = Vec<(i64, i64)>;

/// The first n pairs as a box.
pub fn to_box(sides: &Sides, n: u8) -> StateBox {
    let mut out = Vec::new();
    for i in 0..n as usize {
        out.push((sides[i].0 as i64, sides[i].1 as i64));
    }
    out
}

/// The smallest box that holds both.
pub fn hull(p: &StateBox, q: &StateBox) -> StateBox {
    let mut out = Vec::new();
    for i in 0..p.len() {
        out.push((p[i].0.min(q[i].0), p[i].1.max(q[i].1)));
    }
    out
}

/// Does `inner` lie in `outer`?
pub fn lies_in(inner: &StateBox, outer: &StateBox) -> bool {
    for i in 0..inner.len() {
        if inner[i].0 < outer[i].0 || inner[i].1 > outer[i].1 {
            return false;
        }
    }
    true
}

/// Do the two boxes share a state?
pub fn shares_a_state(p: &StateBox, q: &StateBox) -> bool {
    for i in 0..p.len() {
        if p[i].1 < q[i].0 || q[i].1 < p[i].0 {
            return false;
        }
    }
    true
}

/// The rounds counted so far, and the allowance if there is one.
pub struct Count {
    pub rounds: u64,
    pub allowance: Option<u64>,
}

/// A round was due and the count equalled the allowance.
#[derive(Debug)]
pub struct Spent;

impl Count {
    /// Called when a round is due.
    fn take_round(&mut self) -> Result<(), Spent> {
        if Some(self.rounds) == self.allowance {
            return Err(Spent);
        }
        self.rounds += 1;
        Ok(())
    }
}

/// Least and greatest of factor * x for x in lower..upper.
fn term(factor: i64, lower: i64, upper: i64) -> (i64, i64) {
    let (p, q) = (factor * lower, factor * upper);
    (p.min(q), p.max(q))
}

/// The part of a slab that lies in band k, which the slab meets: from the band's
/// edge up to just below the next edge, the last band without end.
fn part_in_band(sheet: &Sheet, k: usize, slab: &StateBox) -> StateBox {
    let v = sheet.band_variable as usize;
    let mut part = slab.clone();
    part[v].0 = part[v].0.max(sheet.band[k].edge as i64);
    if k + 1 < sheet.bands as usize {
        part[v].1 = part[v].1.min(sheet.band[k + 1].edge as i64 - 1);
    }
    part
}

/// Least and greatest plain command over a slab's part in band k. Where the law follows
/// the state, "the ends are bounded like a rate" (document 02, paper 9): the sum's least
/// and greatest side by side, then floor and ceil, then the clamp.
fn plain_commands_over(sheet: &Sheet, k: usize, part: &StateBox) -> (i64, i64) {
    let band = &sheet.band[k];
    if band_mark(sheet) == *b"BD" {
        return (band.safety_least as i64, band.safety_greatest as i64);
    }
    let mut sum_lower = band.law.constant as i64;
    let mut sum_upper = band.law.constant as i64;
    for j in 0..sheet.n as usize {
        let (lower, upper) = term(band.law.coefficients[j] as i64, part[j].0, part[j].1);
        sum_lower += lower;
        sum_upper += upper;
    }
    (
        least_command(sum_lower, band),
        greatest_command(sum_upper, band),
    )
}

/// Least and greatest command of a coach's span, of which each tick may use any;
/// none is the plain law.
pub type Law = Option<(i32, i32)>;

/// The least and the greatest allowed change of variable i over the slab, all
/// its commands and every band that the slab meets.
pub fn rates(sheet: &Sheet, i: usize, slab: &StateBox, law: Law) -> (i64, i64) {
    let cap = sheet.caps[i] as i64;
    // Every slab meets a band; these are then replaced or bettered.
    let mut least = cap;
    let mut greatest = -cap;
    let (slab_lower, slab_upper) = slab[sheet.band_variable as usize];
    for k in 0..sheet.bands as usize {
        if !meets_band(sheet, k, slab_lower, slab_upper) {
            continue;
        }
        // The row bounded over the part of the slab that lies in this band, side
        // by side (document 02, paper 3).
        let part = part_in_band(sheet, k, slab);
        let (u_lower, u_upper) = match law {
            Some((least, greatest)) => (least as i64, greatest as i64),
            None => plain_commands_over(sheet, k, &part),
        };
        let row = &sheet.band[k].rows[i];
        let (mut n_lower, mut n_upper) = term(row.b as i64, u_lower, u_upper);
        n_lower += row.c as i64;
        n_upper += row.c as i64;
        for j in 0..sheet.n as usize {
            let (lower, upper) = term(row.a[j] as i64, part[j].0, part[j].1);
            n_lower += lower;
            n_upper += upper;
        }
        let (d, q) = (row.d as i64, row.q as i64);
        least = least.min(least_change(n_lower, d, q, cap));
        greatest = greatest.max(greatest_change(n_upper, d, q, cap));
    }
    (least, greatest)
}

/// A settled step.
#[derive(Debug)]
pub struct Step {
    pub end: StateBox,
    pub swept: StateBox,
    /// The ticks it settled with.
    pub k: i64,
}

/// Start with each face moved by `times` rates.
fn moved(start: &StateBox, face_rates: &[(i64, i64)], times: i64) -> StateBox {
    let mut out = Vec::new();
    for i in 0..start.len() {
        out.push((
            start[i].0 + times * face_rates[i].0,
            start[i].1 + times * face_rates[i].1,
        ));
    }
    out
}

/// One lifted step from `start` with length k.
pub fn step(
    sheet: &Sheet,
    start: &StateBox,
    length: i64,
    law: Law,
    count: &mut Count,
) -> Result<Step, Spent> {
    let mut k = length;
    loop {
        // Let E be the start box.
        let mut e = start.clone();
        for _ in 0..8 {
            count.take_round()?;
            // A round looks at each face.
            let mut face_rates = Vec::new();
            for i in 0..sheet.n as usize {
                let cap = sheet.caps[i] as i64;
                let mut lower_slab = e.clone();
                lower_slab[i].1 = e[i].1.min(start[i].0 + (k + 1) * cap);
                let mut upper_slab = e.clone();
                upper_slab[i].0 = e[i].0.max(start[i].1 - (k + 1) * cap);
                let lower_rate = rates(sheet, i, &lower_slab, law).0;
                let upper_rate = rates(sheet, i, &upper_slab, law).1;
                face_rates.push((lower_rate, upper_rate));
            }
            let m = hull(start, &moved(start, &face_rates, k - 1));
            if lies_in(&m, &e) {
                let end = moved(start, &face_rates, k);
                let swept = hull(start, &end);
                return Ok(Step { end, swept, k });
            }
            e = hull(&e, &m);
        }
        // After eight unsettled rounds k is halved; k = 1 never comes here.
        k /= 2;
    }
}

/// A reach of `ticks` at `width` from `start`, under one command or none, which is
/// the plain law: end box, swept box, rounds.
#[allow(clippy::type_complexity)]
pub fn reach(
    sheet: &Sheet,
    ticks: u32,
    width: u32,
    command: Option<i32>,
    start: &[(i64, i64)],
) -> Result<(Vec<(i64, i64)>, Vec<(i64, i64)>, u64), u8> {
    // The sheet, then 16, then 14 if under a command, then 15.
    test_values(sheet)?;
    if ticks > 1_000 || width < 1 || width > 1_000 {
        return Err(16);
    }
    if let Some(u) = command {
        test_command(sheet, u)?;
    }
    if start.len() != sheet.n as usize {
        return Err(15);
    }
    for (lower, upper) in start {
        if lower > upper || *lower < -1_000_000 || *upper > 1_000_000 {
            return Err(15);
        }
    }

    let mut count = Count {
        rounds: 0,
        allowance: None,
    };
    // T = 0 returns the start box as end and swept, with 0 rounds. Otherwise
    // the first step's swept box holds start, so the hull may begin with it.
    let mut end: StateBox = start.to_vec();
    let mut swept: StateBox = start.to_vec();
    let mut left = ticks as i64;
    while left > 0 {
        let k = left.min(width as i64);
        let law = command.map(|u| (u, u));
        let settled = match step(sheet, &end, k, law, &mut count) {
            Ok(settled) => settled,
            Err(Spent) => unreachable!("no allowance"),
        };
        left -= settled.k;
        swept = hull(&swept, &settled.swept);
        end = settled.end;
    }
    Ok((end, swept, count.rounds))
}
