//! Machines that are drawn toward a center, so that many of them pass their recovery check: by their
//! rows, and where the plain law follows the state by the law, too.

use crate::generate::everywhere;
use crate::random::Random;
use second_guard::boxes::VARIABLES;
use second_guard::sheet::{self, Band, BandLaw, CommandRange, Kind, Row, Sheet};

/// A number for each variable.
type Each = [i64; VARIABLES];

/// A machine with an unsafe box out of reach; its recovery box lies around the center.
pub struct Drawn {
    pub sheet: Sheet,
    pub center: Each,
    pub radius: Each,
}

/// What the rows are drawn from.
struct Parts {
    n: usize,
    /// The variable that a law follows most.
    led: usize,
    strongest: i32,
    center: Each,
    radius: Each,
    /// By these numbers a row draws its variable to the center.
    pull: Each,
    divisor: Each,
}

fn clamp(value: i64, limit: i64) -> i32 {
    value.clamp(-limit, limit) as i32
}

/// A machine of n variables with bands of this kind.
pub fn drawn(random: &mut Random, n: usize, kind: Kind) -> Drawn {
    let strongest = random.spread(5, 2_000) as i32;
    let mut sheet = Sheet {
        variables: n as i32,
        band_variable: random.below(n) as i32,
        delta: random.int(1, 12),
        alpha: random.int(1, 25),
        rho: random.int(1, 20),
        commands: CommandRange {
            least: -strongest,
            greatest: strongest,
        },
        unsafe_count: 1,
        ..Sheet::default()
    };
    sheet.unsafe_boxes[0] = everywhere(n);
    sheet.unsafe_boxes[0].lower[0] = sheet::SIDE_LIMIT;
    let parts = parts(random, &mut sheet);
    let edges = edges(random, &sheet, &parts);
    sheet.band_count = edges.len() as i32;
    let base = rows(random, &sheet, &parts, kind);
    for (k, &edge) in edges.iter().enumerate() {
        sheet.bands[k] = band(random, &parts, &base, kind);
        sheet.bands[k].edge = edge as i32;
    }
    Drawn {
        sheet,
        center: parts.center,
        radius: parts.radius,
    }
}

/// Draws the caps and the recovery box, and how strongly the rows draw.
fn parts(random: &mut Random, sheet: &mut Sheet) -> Parts {
    let n = sheet.n();
    let mut parts = Parts {
        n,
        led: random.below(n),
        strongest: sheet.commands.greatest,
        center: [0; VARIABLES],
        radius: [0; VARIABLES],
        pull: [0; VARIABLES],
        divisor: [0; VARIABLES],
    };
    for i in 0..n {
        let cap = random.spread(1, 300);
        sheet.caps[i] = cap as i32;
        let center = match random.percent(40) {
            true => random.range(-20_000, 20_000),
            false => 0,
        };
        let radius = cap * random.spread(3, 50);
        // At the radius the row changes by `strength` tenths of the cap.
        let strength = random.range(6, 30);
        let pull = random.spread(10, 1_000);
        let divisor = 10 * pull * radius / (cap * strength);
        (parts.pull[i], parts.divisor[i]) = match divisor {
            4_097.. => (4_096 * cap * strength / (10 * radius), 4_096),
            _ => (pull, divisor.max(1)),
        };
        parts.pull[i] = parts.pull[i].clamp(1, 1_000);
        (parts.center[i], parts.radius[i]) = (center, radius);
        sheet.recovery.lower[i] = center - radius;
        sheet.recovery.upper[i] = center + radius;
    }
    parts
}

/// The bands' edges, some of them near the sides of the recovery box, where the machine is driven to.
fn edges(random: &mut Random, sheet: &Sheet, parts: &Parts) -> Vec<i64> {
    let v = sheet.band_variable as usize;
    let (center, radius, cap) = (parts.center[v], parts.radius[v], i64::from(sheet.caps[v]));
    let mut edges = vec![i64::from(sheet::FIRST_EDGE)];
    for _ in 1..random.pick(&[1, 2, 3, 4, 8]) {
        let edge = if random.percent(50) {
            let side = random.pick(&[-radius, radius]);
            center + side + random.range(-4 * cap, 4 * cap)
        } else {
            center + random.range(-radius, radius)
        };
        if !edges.contains(&edge) {
            edges.push(edge);
        }
    }
    edges.sort_unstable();
    edges
}

/// The rows that all bands begin with.
fn rows(random: &mut Random, sheet: &Sheet, parts: &Parts, kind: Kind) -> [Row; VARIABLES] {
    let mut rows = [Row::default(); VARIABLES];
    for (i, row) in rows[..parts.n].iter_mut().enumerate() {
        *row = coupled_row(random, parts, i);
        let strongest = i64::from(parts.strongest);
        let strong = parts.divisor[i] * i64::from(sheet.caps[i]) * random.range(10, 40);
        let mut push = strong / (10 * strongest);
        if kind == Kind::Following {
            // The command moves one variable, and the others by little.
            let weak = random.pick(&[0, push / 20, push / 8, push / 3]);
            push = if i == parts.led { push.max(1) } else { weak };
        }
        row.b = clamp(random.pick(&[push, push, -push]), 1_000);
        if random.percent(25) && (kind == Kind::Fixed || i != parts.led) {
            row.b = 0;
        }
        if random.percent(40) {
            let most = parts.pull[i] * parts.radius[i] / 12;
            row.d = random.spread(1, most.max(1)) as i32;
        }
        if kind == Kind::Following && i == parts.led {
            weaken(random, row);
        }
    }
    rows
}

/// Leaves some of the drawing to the law.
fn weaken(random: &mut Random, row: &mut Row) {
    let (share, of) = random.pick(&[(1, 1), (1, 2), (1, 8), (0, 1)]);
    for number in row.a.iter_mut().chain([&mut row.c, &mut row.d]) {
        *number = *number * share / of;
    }
}

/// A row that draws its variable to the center, and is moved by the others a little.
fn coupled_row(random: &mut Random, parts: &Parts, i: usize) -> Row {
    let (pull, center) = (parts.pull[i], &parts.center);
    let mut row = Row {
        q: parts.divisor[i] as i32,
        ..Row::default()
    };
    row.a[i] = -pull as i32;
    let mut offset = pull * center[i];
    for j in (0..parts.n).filter(|&j| j != i) {
        if random.percent(60) {
            let most = pull * parts.radius[i] / (3 * parts.n as i64 * parts.radius[j]);
            let a = random.range(-most, most).clamp(-1_000, 1_000);
            row.a[j] = a as i32;
            offset -= a * center[j];
        }
    }
    row.c = clamp(offset, 100_000_000);
    row
}

/// A band: rows with another offset or another sign of the command's term, a safety range, a law.
fn band(random: &mut Random, parts: &Parts, base: &[Row; VARIABLES], kind: Kind) -> Band {
    let mut band = Band {
        rows: *base,
        ..Band::default()
    };
    for (i, row) in band.rows[..parts.n].iter_mut().enumerate() {
        if random.percent(50) {
            let shift = (parts.pull[i] * parts.radius[i] / 12).max(1);
            let offset = i64::from(row.c) + random.range(-shift, shift);
            row.c = clamp(offset, 100_000_000);
        }
        if random.percent(30) {
            row.b = -row.b;
        }
    }
    band.safety = safety(random, parts.strongest, kind);
    if kind == Kind::Following {
        band.law = law(random, parts, &band);
    }
    band
}

/// A few commands; where a law follows the state, many of them.
fn safety(random: &mut Random, strongest: i32, kind: Kind) -> CommandRange {
    let soft = (strongest / 20).max(1);
    let middle = random.int(-soft, soft);
    let room = match kind {
        Kind::Fixed => random.pick(&[0, 0, soft]),
        Kind::Following => random.pick(&[soft, strongest / 4, strongest / 2, 2 * strongest]),
    };
    CommandRange {
        least: (middle - room).max(-strongest),
        greatest: (middle + room).min(strongest),
    }
}

/// A law that draws the led variable to the center by the band's row, and follows the others a little.
/// At the radius its command is some part of the strongest, or more.
fn law(random: &mut Random, parts: &Parts, band: &Band) -> BandLaw {
    let led = parts.led;
    let mut law = BandLaw::default();
    let size = random.spread(1, 200);
    law.coefficients[led] = -band.rows[led].b.signum() * size as i32;
    for j in (0..parts.n).filter(|&j| j != led) {
        if random.percent(50) {
            let share = random.pick(&[1, 4]) * parts.n as i64;
            let most = size * parts.radius[led] / (share * parts.radius[j]);
            law.coefficients[j] = clamp(random.range(-most, most), 1_000);
        }
    }
    let tenths = random.pick(&[2, 5, 10, 20]);
    let divisor = 10 * size * parts.radius[led] / (i64::from(parts.strongest) * tenths);
    law.divisor = divisor.clamp(1, 4_096) as i32;
    let at_center = law.coefficients.iter().zip(&parts.center);
    let at_center: i64 = at_center.map(|(&a, &x)| i64::from(a) * x).sum();
    law.constant = clamp(-at_center, 100_000_000);
    law
}
