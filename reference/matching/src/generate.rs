//! Random sheets and questions that are accepted,
//! and boxes placed so that a decision ends at a wanted width.
//! The unsafe boxes are in the order of paper 2 of document 02, and the recovery box is clear of them,
//! as paper 8 asks.

use crate::expected::pairs;
use crate::laws::{any_kind, any_law, put_laws};
use crate::random::Random;
use second_guard::boxes::{StateBox, VARIABLES};
use second_guard::decision::{trace, Faults, Question};
use second_guard::sheet::{self, Band, BandLaw, CommandRange, Kind, Row, Sheet};
use second_guard::sheet::{BANDS, UNSAFE_BOXES};

const SIDE: i64 = sheet::SIDE_LIMIT;
const START: i64 = sheet::START_LIMIT;

/// A sheet, and a measured box and a command that suit it.
#[derive(Clone, Copy)]
pub struct Case {
    pub sheet: Sheet,
    pub measured: StateBox,
    pub command: i32,
}

/// The ticks of a sheet's head.
#[derive(Clone, Copy)]
pub struct Times {
    pub delta: i32,
    pub alpha: i32,
    pub rho: i32,
}

/// Times of at most so many ticks each.
pub fn times(random: &mut Random, most: i64) -> Times {
    let delta = random.spread(1, most.min(999));
    let alpha = random.spread(1, most.min(1_000 - delta));
    let rho = random.spread(1, most);
    Times {
        delta: delta as i32,
        alpha: alpha as i32,
        rho: rho as i32,
    }
}

/// Times with a first width of at least 512, so that it halves nine times.
pub fn long_times(random: &mut Random) -> Times {
    let long = random.range(512, 999);
    let short = random.range(1, 1_000 - long);
    let (delta, alpha) = if random.percent(30) {
        (long, short)
    } else {
        (short, long)
    };
    Times {
        delta: delta as i32,
        alpha: alpha as i32,
        rho: random.spread(1, 1_000) as i32,
    }
}

/// The widths of a decision in turn.
pub fn widths(sheet: &Sheet) -> Vec<u32> {
    let first = sheet.delta.max(sheet.alpha) as u32;
    std::iter::successors(Some(first), |&width| (width > 1).then_some(width / 2)).collect()
}

fn clamp(value: i64, limit: i64) -> i64 {
    value.clamp(-limit, limit)
}

/// The whole space of unsafe boxes.
pub fn everywhere(n: usize) -> StateBox {
    let mut all = StateBox::default();
    all.lower[..n].fill(-SIDE);
    all.upper[..n].fill(SIDE);
    all
}

/// A box around a state with random sides up to a distance, within the bounds of a start box.
fn around(random: &mut Random, n: usize, center: &[i64], distance: &[i64]) -> StateBox {
    let mut sides = StateBox::default();
    for i in 0..n {
        let mut side = |sign: i64| {
            if random.percent(30) {
                center[i]
            } else {
                center[i] + sign * random.spread(1, distance[i].max(1))
            }
        };
        sides.lower[i] = clamp(side(-1), START);
        sides.upper[i] = clamp(side(1), START);
    }
    sides
}

/// What the rows of one variable are drawn from.
struct Motion {
    kind: u8,
    coupled: bool,
    noisy: bool,
}

/// How often each number of variables is drawn.
const DRAWN_VARIABLES: [usize; 9] = [1, 1, 2, 2, 2, 3, 4, 5, 6];

/// A random machine with a wide recovery box and an unsafe box out of reach.
pub fn model(random: &mut Random, times: Times, most_variables: usize) -> Case {
    let n = random.pick(&DRAWN_VARIABLES).min(most_variables);
    let kind = any_kind(random);
    model_of(random, times, n, kind)
}

/// The same with n variables and bands of this kind.
pub fn model_of(random: &mut Random, times: Times, n: usize, kind: Kind) -> Case {
    let ticks = i64::from(times.delta + times.alpha);
    let v = random.below(n);
    let mut sheet = Sheet {
        variables: n as i32,
        band_variable: v as i32,
        delta: times.delta,
        alpha: times.alpha,
        rho: times.rho,
        ..Sheet::default()
    };
    let reach_of_command = random.spread(1, 10_000) as i32;
    sheet.commands = match random.below(10) {
        0 => CommandRange {
            least: reach_of_command,
            greatest: reach_of_command,
        },
        1 => CommandRange {
            least: -10_000,
            greatest: random.int(-10_000, 10_000),
        },
        _ => CommandRange {
            least: -reach_of_command,
            greatest: reach_of_command,
        },
    };

    let mut center = [0; VARIABLES];
    let mut extent = [0; VARIABLES];
    let mut wide = [0; VARIABLES];
    for i in 0..n {
        let cap = if random.percent(10) {
            random.pick(&[1, 1_000])
        } else {
            random.spread(1, 1_000)
        };
        sheet.caps[i] = cap as i32;
        center[i] = match random.below(10) {
            0..=3 => 0,
            4..=7 => random.signed_spread(1, 3_000),
            _ => random.signed_spread(1, 990_000),
        };
        wide[i] = random.spread(1, (4 * cap * ticks.min(50)).min(900_000));
        extent[i] = (wide[i] + cap * ticks).min(SIDE);
    }
    let measured = around(random, n, &center, &wide);

    // Edges near the measured box, so that neighborhoods meet several bands.
    let wanted = random.pick(&[1, 1, 2, 2, 3, 3, 4, 5, 8]);
    let mut edges = vec![i64::from(sheet::FIRST_EDGE)];
    for _ in 1..wanted {
        let far = random.pick(&[wide[v], extent[v], 20]);
        let edge = center[v] + random.signed_spread(1, far.max(1));
        if edge > -SIDE && edge <= SIDE && !edges.contains(&edge) {
            edges.push(edge);
        }
    }
    edges.sort_unstable();
    sheet.band_count = edges.len() as i32;

    let motions: Vec<Motion> = (0..n)
        .map(|_| Motion {
            kind: random.pick(&[0, 0, 0, 0, 1, 2, 3]),
            coupled: random.percent(40),
            noisy: random.percent(60),
        })
        .collect();
    for (k, &edge) in edges.iter().enumerate() {
        let mut band = Band {
            edge: edge as i32,
            ..Band::default()
        };
        band.safety = any_safety(random, sheet.commands, kind);
        for (i, motion) in motions.iter().enumerate() {
            // Most bands differ from the first only in their offset.
            band.rows[i] = if k > 0 && random.percent(60) {
                let mut row = sheet.bands[0].rows[i];
                let shift = i64::from(row.q) * i64::from(sheet.caps[i]);
                row.c = clamp(
                    i64::from(row.c) + random.signed_spread(1, shift),
                    100_000_000,
                ) as i32;
                row
            } else {
                draw_row(random, &sheet, motion, i, &center, &extent)
            };
        }
        sheet.bands[k] = band;
    }

    sheet.recovery = around(random, n, &center, &extent);
    sheet.unsafe_count = 1;
    sheet.unsafe_boxes[0] = everywhere(n);
    sheet.unsafe_boxes[0].lower[0] = SIDE;
    if kind == Kind::Following {
        let distance = random.pick(&[&wide, &extent]);
        let region = around(random, n, &center, distance);
        put_laws(random, &mut sheet, &region);
    }
    let command = pick_command(random, &sheet);
    Case {
        sheet,
        measured,
        command,
    }
}

/// A safety range of a few commands; where a law follows the state mostly a wide one.
fn any_safety(random: &mut Random, commands: CommandRange, kind: Kind) -> CommandRange {
    let CommandRange { least, greatest } = commands;
    let middle = random.int(-20, 20).clamp(least, greatest);
    let room = match kind {
        Kind::Fixed => random.pick(&[0, 0, 1, 5, 300]),
        Kind::Following => random.pick(&[0, 1, 5, 40, 300, 300, 2_000, 20_000]),
    };
    CommandRange {
        least: (middle - room).max(least),
        greatest: (middle + room).min(greatest),
    }
}

/// A row that moves its variable by amounts around its cap within the extent.
fn draw_row(
    random: &mut Random,
    sheet: &Sheet,
    motion: &Motion,
    i: usize,
    center: &[i64],
    extent: &[i64],
) -> Row {
    let n = sheet.n();
    let cap = i64::from(sheet.caps[i]);
    let size = if random.percent(80) {
        random.spread(1, 30)
    } else {
        random.spread(1, 1_000)
    };
    // The change reaches the cap at about this distance from the center.
    let distance = random.spread(1, extent[i].max(2));
    let q = (size * distance / cap).clamp(1, 4_096);
    let mut row = Row {
        q: q as i32,
        ..Row::default()
    };
    let own = match motion.kind {
        0 => -size,
        1 => size,
        2 => 0,
        _ => random.range(-1_000, 1_000),
    };
    row.a[i] = own as i32;
    let mut offset = -own * center[i];
    if motion.coupled {
        for j in (0..n).filter(|&j| j != i) {
            let most = (q * cap / (extent[j] + 1)).clamp(1, 1_000);
            let a = random.signed_spread(1, most);
            row.a[j] = a as i32;
            offset -= a * center[j];
        }
    }
    let strongest = i64::from(sheet.commands.greatest.abs().max(1));
    if random.percent(85) {
        row.b = random.signed_spread(1, (2 * q * cap / strongest).clamp(1, 1_000)) as i32;
    }
    if random.percent(40) {
        offset += random.signed_spread(1, q * cap);
    }
    row.c = clamp(offset, 100_000_000) as i32;
    if motion.noisy {
        row.d = random.spread(1, (q * cap.min(4)).max(1)) as i32;
    }
    row
}

/// A command of the sheet: an end, the middle or any.
pub fn pick_command(random: &mut Random, sheet: &Sheet) -> i32 {
    let CommandRange { least, greatest } = sheet.commands;
    match random.below(4) {
        0 => least,
        1 => greatest,
        2 => 0.clamp(least, greatest),
        _ => random.int(least, greatest),
    }
}

/// Another measured box near a case's.
pub fn near(random: &mut Random, case: &Case) -> StateBox {
    let n = case.sheet.n();
    let mut sides = case.measured;
    for i in 0..n {
        let cap = i64::from(case.sheet.caps[i]);
        let shift = random.range(-3 * cap, 3 * cap);
        let grow = if random.percent(50) {
            0
        } else {
            random.spread(1, 4 * cap)
        };
        sides.lower[i] = clamp(sides.lower[i] + shift, START);
        sides.upper[i] = clamp(sides.upper[i] + shift + grow, START);
    }
    sides
}

/// What an attempt covered.
struct Attempt {
    end: StateBox,
    swept: StateBox,
}

fn attempt(case: &Case, span: CommandRange, width: u32) -> Attempt {
    let question = Question {
        allowance: 0,
        span,
        measured: case.measured,
    };
    let steps = trace(&case.sheet, &question, width, Faults::default()).steps;
    let swept = steps
        .iter()
        .fold(case.measured, |all, step| all.hull(&step.swept));
    let end = steps.last().map_or(case.measured, |step| step.end);
    Attempt { end, swept }
}

/// An unsafe box beyond one side of a box, at a distance of 1 (beside it) or 0 (touching it).
pub fn wall(
    random: &mut Random,
    n: usize,
    sides: &StateBox,
    i: usize,
    upper: bool,
    distance: i64,
) -> Option<StateBox> {
    let mut wall = everywhere(n);
    let thick = random.pick(&[0, 3, 40, 4_000_000]);
    if upper {
        wall.lower[i] = sides.upper[i] + distance;
        wall.upper[i] = (wall.lower[i] + thick).min(SIDE);
    } else {
        wall.upper[i] = sides.lower[i] - distance;
        wall.lower[i] = (wall.upper[i] - thick).max(-SIDE);
    }
    (wall.lower[i] <= wall.upper[i] && wall.lower[i] >= -SIDE && wall.upper[i] <= SIDE)
        .then_some(wall)
}

/// How a case was shaped.
#[derive(Clone, Copy, Debug, PartialEq, Eq)]
pub enum Shape {
    /// No place was found.
    None,
    /// The recovery box lets this width pass and none before it.
    ByRecovery,
    /// An unsafe box stands beside what this width sweeps.
    Beside,
    /// An unsafe box touches what this width sweeps.
    Touching,
}

/// Places recovery and unsafe boxes so that the attempt after so many halvings is the first
/// to pass, or the first that only just fails. It is the attempt under the case's command.
pub fn shape(random: &mut Random, case: &mut Case, halvings: usize) -> Shape {
    let span = CommandRange::one(case.command);
    shape_for(random, case, span, halvings)
}

/// The same for the attempt under a span.
pub fn shape_for(
    random: &mut Random,
    case: &mut Case,
    span: CommandRange,
    halvings: usize,
) -> Shape {
    let n = case.sheet.n();
    let attempts: Vec<Attempt> = widths(&case.sheet)
        .iter()
        .take(halvings + 1)
        .map(|&width| attempt(case, span, width))
        .collect();
    let Some((wanted, before)) = attempts.split_last() else {
        return Shape::None;
    };
    let fits = wanted.end.ordered_within(n, START);
    let mut shape = Shape::None;
    if fits && random.percent(60) && before.iter().all(|a| !a.end.inside(&wanted.end)) {
        let mut recovery = wanted.end;
        for i in 0..n {
            // Wider where the attempts before still stay outside.
            let wider = StateBox {
                lower: {
                    let mut lower = recovery.lower;
                    lower[i] = clamp(lower[i] - random.spread(1, 1_000), START);
                    lower
                },
                upper: recovery.upper,
            };
            if random.percent(50) && before.iter().all(|a| !a.end.inside(&wider)) {
                recovery = wider;
            }
        }
        case.sheet.recovery = recovery;
        shape = Shape::ByRecovery;
    } else if fits {
        // A side where every attempt before sweeps further.
        let sides: Vec<(usize, bool)> = (0..n)
            .flat_map(|i| [(i, false), (i, true)])
            .filter(|&(i, upper)| {
                before.iter().all(|a| {
                    if upper {
                        a.swept.upper[i] > wanted.swept.upper[i]
                    } else {
                        a.swept.lower[i] < wanted.swept.lower[i]
                    }
                })
            })
            .collect();
        if !sides.is_empty() {
            let (i, upper) = random.pick(&sides);
            // A touching wall leaves the end box room for a recovery box that is clear of it.
            let touching = random.percent(40) && ends_within(wanted, i, upper);
            let distance = i64::from(!touching);
            // Only a wall without end stops all the attempts before.
            if let Some(mut stop) = wall(random, n, &wanted.swept, i, upper, distance) {
                if upper {
                    stop.upper[i] = SIDE;
                } else {
                    stop.lower[i] = -SIDE;
                }
                case.sheet.unsafe_boxes[0] = stop;
                let mut recovery = wanted.end;
                for a in before {
                    recovery = recovery.hull(&a.end);
                }
                for i in 0..n {
                    recovery.lower[i] = clamp(recovery.lower[i], START);
                    recovery.upper[i] = clamp(recovery.upper[i], START);
                }
                case.sheet.recovery = recovery;
                shape = if touching {
                    Shape::Touching
                } else {
                    Shape::Beside
                };
            }
        }
    }
    if shape == Shape::None {
        let around = wanted.swept.hull(&case.sheet.recovery);
        add_walls(random, &mut case.sheet, &around);
    } else {
        add_walls(random, &mut case.sheet, &wanted.swept);
        cut_recovery(&mut case.sheet, &wanted.end);
    }
    add_twin(random, &mut case.sheet);
    set_in_order(&mut case.sheet);
    shape
}

/// The attempt sweeps further to this side than it ends.
fn ends_within(attempt: &Attempt, i: usize, upper: bool) -> bool {
    if upper {
        attempt.end.upper[i] < attempt.swept.upper[i]
    } else {
        attempt.swept.lower[i] < attempt.end.lower[i]
    }
}

/// Adds unsafe boxes beside a box.
fn add_walls(random: &mut Random, sheet: &mut Sheet, sides: &StateBox) {
    let n = sheet.n();
    for _ in 0..random.pick(&[0, 0, 0, 1, 2, 7]) {
        let count = sheet.unsafe_count as usize;
        let (i, upper) = (random.below(n), random.percent(50));
        let distance = random.pick(&[1, 1, 2, 100]);
        let wall = wall(random, n, sides, i, upper, distance);
        if let (true, Some(wall)) = (count < UNSAFE_BOXES, wall) {
            sheet.unsafe_boxes[count] = wall;
            sheet.unsafe_count += 1;
        }
    }
}

/// Cuts the recovery box where it meets an unsafe box, so that it ends just beside that. It keeps all
/// of a box that is in it and clear of the unsafe boxes.
pub fn cut_recovery(sheet: &mut Sheet, kept: &StateBox) {
    let (n, mut recovery) = (sheet.n(), sheet.recovery);
    for unsafe_box in sheet.unsafe_boxes() {
        if recovery.meets(unsafe_box) {
            cut_beside(&mut recovery, unsafe_box, kept, n);
        }
    }
    sheet.recovery = recovery;
}

/// Cuts a box in the first variable in which the kept one lies beside the other.
fn cut_beside(sides: &mut StateBox, other: &StateBox, kept: &StateBox, n: usize) {
    for i in 0..n {
        if kept.upper[i] < other.lower[i] {
            sides.upper[i] = other.lower[i] - 1;
            return;
        }
        if other.upper[i] < kept.lower[i] {
            sides.lower[i] = other.upper[i] + 1;
            return;
        }
    }
}

/// Moves the unsafe boxes that the recovery box meets just beside it, to any side.
fn move_unsafe_boxes(random: &mut Random, sheet: &mut Sheet) {
    let (n, recovery) = (sheet.n(), sheet.recovery);
    for unsafe_box in &mut sheet.unsafe_boxes[..sheet.unsafe_count as usize] {
        if !unsafe_box.meets(&recovery) {
            continue;
        }
        let i = random.below(n);
        if random.percent(50) {
            unsafe_box.lower[i] = recovery.upper[i] + 1;
            unsafe_box.upper[i] = unsafe_box.upper[i].max(unsafe_box.lower[i]);
        } else {
            unsafe_box.upper[i] = recovery.lower[i] - 1;
            unsafe_box.lower[i] = unsafe_box.lower[i].min(unsafe_box.upper[i]);
        }
    }
    set_in_order(sheet);
}

/// Adds a twin of an unsafe box in every second case, where there is room. It differs in one side
/// alone and lies in that box, so that no answer changes.
fn add_twin(random: &mut Random, sheet: &mut Sheet) {
    let (n, count) = (sheet.n(), sheet.unsafe_count as usize);
    let drawn = random.below(2 * count * 2 * n);
    let (j, side) = (drawn / (2 * n), drawn % (2 * n));
    if j >= count || count == UNSAFE_BOXES {
        return;
    }
    let (mut twin, i) = (sheet.unsafe_boxes[j], side / 2);
    match side % 2 {
        0 => twin.lower[i] += 1,
        _ => twin.upper[i] -= 1,
    }
    if twin.lower[i] <= twin.upper[i] {
        sheet.unsafe_boxes[count] = twin;
        sheet.unsafe_count += 1;
    }
}

/// Puts a sheet's unsafe boxes in order, equal ones once.
pub fn set_in_order(sheet: &mut Sheet) {
    let n = sheet.n();
    let mut boxes = sheet.unsafe_boxes().to_vec();
    boxes.sort_by(|x, y| x.compare(y, n));
    boxes.dedup_by(|x, y| x.compare(y, n).is_eq());
    sheet.unsafe_count = boxes.len() as i32;
    sheet.unsafe_boxes = [StateBox::default(); UNSAFE_BOXES];
    sheet.unsafe_boxes[..boxes.len()].copy_from_slice(&boxes);
}

/// A case of everyday times, and how it was shaped: for so many halvings of the width.
pub struct Everyday {
    pub case: Case,
    pub shape: Shape,
    pub halvings: usize,
}

fn everyday_times(random: &mut Random) -> Times {
    let most = random.pick(&[4, 12, 12, 40, 40, 120]);
    times(random, most)
}

pub fn everyday(random: &mut Random) -> Everyday {
    let times = everyday_times(random);
    let case = model(random, times, VARIABLES);
    shaped(random, case)
}

/// The same with n variables and bands of this kind.
pub fn everyday_of(random: &mut Random, n: usize, kind: Kind) -> Everyday {
    let times = everyday_times(random);
    let case = model_of(random, times, n, kind);
    shaped(random, case)
}

/// The case with its boxes placed for any number of halvings.
fn shaped(random: &mut Random, mut case: Case) -> Everyday {
    let halvings = random.below(widths(&case.sheet).len());
    let shape = shape(random, &mut case, halvings);
    Everyday {
        case,
        shape,
        halvings,
    }
}

/// A question with any one command about a box near a case's.
pub fn question_near(random: &mut Random, case: &Case) -> Question {
    let measured = near(random, case);
    Question {
        allowance: random.spread(1, 1_000_000) as u32,
        span: CommandRange::one(pick_command(random, &case.sheet)),
        measured,
    }
}

/// A machine that grows slowly, so that long steps do not settle and halve.
pub fn slow_growth(random: &mut Random) -> Case {
    let times = Times {
        delta: random.int(8, 60),
        alpha: random.int(1, 40),
        rho: random.int(1, 60),
    };
    let mut case = model(random, times, VARIABLES);
    let n = case.sheet.n();
    let i = random.below(n);
    case.sheet.caps[i] = random.int(600, 1_000);
    let q = random.int(3, 24);
    for k in 0..case.sheet.band_count as usize {
        let mut row = Row {
            q,
            ..Row::default()
        };
        row.a[i] = random.pick(&[1, 1, 1, -1, 2]);
        row.d = random.pick(&[0, 0, q]);
        case.sheet.bands[k].rows[i] = row;
    }
    case.measured.lower[i] = random.range(-40, 10);
    case.measured.upper[i] = case.measured.lower[i] + random.range(1, 50);
    case
}

/// A case of over 100,000 rounds. The first variable's step of two or more ticks meets the
/// third band, where each variable grows at a scale of its own; a step of one tick does not,
/// and nothing moves.
pub fn worst_case() -> Case {
    const TOP: i64 = 3_100;
    let still = Row {
        q: 1,
        ..Row::default()
    };
    let mut sheet = Sheet {
        variables: 4,
        band_count: 3,
        unsafe_count: 1,
        delta: 250,
        alpha: 750,
        rho: 1,
        commands: CommandRange {
            least: -1,
            greatest: 1,
        },
        caps: [1_000; VARIABLES],
        ..Sheet::default()
    };
    sheet.bands[0].edge = sheet::FIRST_EDGE;
    sheet.bands[0].rows = [still; VARIABLES];
    sheet.bands[0].rows[0].c = 1;
    sheet.bands[1].edge = 1_050;
    sheet.bands[1].rows = [still; VARIABLES];
    sheet.bands[2].edge = TOP as i32 + 1;
    for (i, q) in [20, 8, 3, 1].into_iter().enumerate() {
        let mut row = Row {
            c: q,
            q,
            ..Row::default()
        };
        row.a[i] = 1;
        sheet.bands[2].rows[i] = row;
    }
    sheet.bands[2].rows[0].c -= TOP as i32;
    sheet.unsafe_boxes[0] = everywhere(4);
    sheet.unsafe_boxes[0].lower[3] = SIDE;
    let mut measured = StateBox::default();
    measured.upper[0] = TOP;
    Case {
        sheet,
        measured,
        command: 0,
    }
}

/// A case of over 280,000 rounds with six variables and eight bands, most of which each neighborhood
/// meets, and nearly all under the plain law. It grows as in `worst_case`, at six scales. Where the plain
/// law follows the state, each growing band's law is divided, and under its commands the growth is the same.
pub fn worst_case_of(kind: Kind) -> Case {
    const SCALES: [i32; VARIABLES] = [1, 3, 8, 20, 50, 175];
    let mut case = worst_case();
    let sheet = &mut case.sheet;
    (sheet.variables, sheet.band_count) = (VARIABLES as i32, BANDS as i32);
    (sheet.delta, sheet.alpha) = (1, 999);
    let top = sheet.bands[2].edge - 1;
    for (k, band) in sheet.bands.iter_mut().enumerate().skip(2) {
        band.edge = top + k as i32 - 1;
        for (i, (row, q)) in band.rows.iter_mut().zip(SCALES).enumerate() {
            *row = Row {
                c: q,
                q,
                ..Row::default()
            };
            row.a[i] = 1;
        }
        band.rows[0].c -= top;
    }
    sheet.unsafe_boxes[0] = everywhere(VARIABLES);
    sheet.unsafe_boxes[0].lower[VARIABLES - 1] = SIDE;
    if kind == Kind::Following {
        put_worst_laws(sheet);
    }
    case
}

/// Commands from -1 to 1 in the bands that grow, and none but 0 in the first two.
fn put_worst_laws(sheet: &mut Sheet) {
    for (k, band) in sheet.bands.iter_mut().enumerate() {
        band.law = BandLaw {
            coefficients: [1, -1, 1, -1, 1, -1],
            constant: 0,
            divisor: 4_096,
        };
        if k >= 2 {
            (band.safety.least, band.safety.greatest) = (-1, 1);
        }
        band.rows.iter_mut().for_each(|row| row.b = 1);
    }
}

/// Puts values at their bounds, so that the sheet is still accepted.
pub type Bound = (&'static str, fn(&mut Random, &mut Sheet));

/// Every bound of a sheet's values.
pub const BOUNDS: [Bound; 18] = [
    ("delta + alpha = 1,000", |random, sheet| {
        sheet.delta = random.pick(&[1, 2, 500, 999]);
        sheet.alpha = 1_000 - sheet.delta;
    }),
    ("delta, alpha and rho 1", |_, sheet| {
        (sheet.delta, sheet.alpha, sheet.rho) = (1, 1, 1);
    }),
    ("rho 1,000", |_, sheet| sheet.rho = 1_000),
    ("commands from -10,000 to 10,000", |_, sheet| {
        sheet.commands.least = -10_000;
        sheet.commands.greatest = 10_000;
    }),
    ("one command", |random, sheet| {
        let only = random.pick(&[-10_000, 0, 10_000]);
        sheet.commands.least = only;
        sheet.commands.greatest = only;
        for band in &mut sheet.bands {
            band.safety = sheet.commands;
        }
    }),
    ("safety range as wide as the commands", |random, sheet| {
        let k = random.below(sheet.band_count as usize);
        sheet.bands[k].safety = sheet.commands;
    }),
    ("caps 1 and 1,000", |random, sheet| {
        for i in 0..sheet.n() {
            sheet.caps[i] = random.pick(&[1, 1_000]);
        }
    }),
    ("edges next to their bounds", |random, sheet| {
        sheet.band_count = 3;
        sheet.bands[1] = sheet.bands[0];
        sheet.bands[2] = sheet.bands[0];
        (sheet.bands[1].edge, sheet.bands[2].edge) = random.pick(&[
            (-1_999_999, 2_000_000),
            (1_999_999, 2_000_000),
            (-1_999_999, -1_999_998),
        ]);
    }),
    ("coefficients -1,000 and 1,000", |random, sheet| {
        let n = sheet.n();
        any_row(random, sheet, |random, row| {
            for a in row.a[..n].iter_mut().chain([&mut row.b]) {
                *a = random.pick(&[-1_000, 1_000]);
            }
        });
    }),
    ("offset -100,000,000 and 100,000,000", |random, sheet| {
        any_row(random, sheet, |random, row| {
            row.c = random.pick(&[-100_000_000, 100_000_000]);
        });
    }),
    ("spread 0 and 100,000,000", |random, sheet| {
        any_row(random, sheet, |random, row| {
            row.d = random.pick(&[0, 100_000_000]);
        });
    }),
    ("divisor 1 and 4,096", |random, sheet| {
        any_row(random, sheet, |random, row| {
            row.q = random.pick(&[1, 4_096]);
        });
    }),
    ("unsafe sides at their bounds", |random, sheet| {
        let n = sheet.n();
        let j = random.below(sheet.unsafe_count as usize);
        let side = random.pick(&[-SIDE, SIDE]);
        sheet.unsafe_boxes[j] = everywhere(n);
        let i = random.below(n);
        sheet.unsafe_boxes[j].lower[i] = side;
        sheet.unsafe_boxes[j].upper[i] = side;
        set_in_order(sheet);
    }),
    ("recovery sides at their bounds", |random, sheet| {
        for i in 0..sheet.n() {
            let (lower, upper) =
                random.pick(&[(-START, START), (-START, -START), (START, START), (0, 0)]);
            sheet.recovery.lower[i] = lower;
            sheet.recovery.upper[i] = upper;
        }
        move_unsafe_boxes(random, sheet);
    }),
    ("law coefficients -1,000 and 1,000", |random, sheet| {
        let n = sheet.n();
        any_law(random, sheet, |random, law| {
            for coefficient in &mut law.coefficients[..n] {
                *coefficient = random.pick(&[-1_000, 1_000]);
            }
        });
    }),
    ("law coefficients 0", |random, sheet| {
        any_law(random, sheet, |_, law| law.coefficients.fill(0));
    }),
    (
        "law constant -100,000,000 and 100,000,000",
        |random, sheet| {
            any_law(random, sheet, |random, law| {
                law.constant = random.pick(&[-100_000_000, 100_000_000]);
            });
        },
    ),
    ("law divisor 1 and 4,096", |random, sheet| {
        any_law(random, sheet, |random, law| {
            law.divisor = random.pick(&[1, 4_096]);
        });
    }),
];

fn any_row(random: &mut Random, sheet: &mut Sheet, change: impl Fn(&mut Random, &mut Row)) {
    let k = random.below(sheet.band_count as usize);
    let i = random.below(sheet.n());
    change(random, &mut sheet.bands[k].rows[i]);
}

/// The bytes of a sheet that the writer takes.
pub fn sheet_bytes(sheet: &Sheet) -> Vec<u8> {
    let longest = sheet::length(Kind::Following, VARIABLES, BANDS, UNSAFE_BOXES);
    let mut bytes = vec![0; longest];
    let length = sheet::write(sheet, &mut bytes, 0).expect("generated sheets are accepted");
    bytes.truncate(length);
    bytes
}

/// Where band k begins, and after the last one the first unsafe record.
pub fn band_record(sheet: &Sheet, k: usize) -> usize {
    let (bands, boxes) = (sheet.bands().len(), sheet.unsafe_boxes().len());
    let length = |bands: usize| sheet::length(sheet.kind(), sheet.n(), bands, boxes);
    record(sheet, 0) - (length(bands) - length(k))
}

/// Where unsafe record j begins, after the last one the recovery record, and after that the end.
pub fn record(sheet: &Sheet, j: usize) -> usize {
    let records = sheet.unsafe_boxes().len() + 1;
    sheet.length() - (2 + 8 * sheet.n()) * (records - j)
}

/// The bytes of a sheet whose unsafe boxes may stand in any order and on the recovery box, all else
/// being in range.
pub fn bytes_as_they_are(sheet: &Sheet) -> Vec<u8> {
    let (n, mut accepted) = (sheet.n(), *sheet);
    accepted.recovery = StateBox::default();
    for (number, sides) in (1..).zip(&mut accepted.unsafe_boxes) {
        sides.lower[..n].fill(number);
        sides.upper[..n].fill(number);
    }
    let mut bytes = sheet_bytes(&accepted);
    let boxes = sheet.unsafe_boxes().iter().chain([&sheet.recovery]);
    for (j, sides) in boxes.enumerate() {
        let at = record(sheet, j) + 2;
        bytes[at..at + 8 * n].copy_from_slice(&pairs(sides, n));
    }
    bytes
}

/// The bytes of a question about one command, in range or not.
pub fn question_bytes(allowance: u32, command: i32, measured: &StateBox, n: usize) -> Vec<u8> {
    marked_bytes(b"QS", allowance, &[command], measured, n)
}

/// The same about a span.
pub fn span_bytes(allowance: u32, span: CommandRange, measured: &StateBox, n: usize) -> Vec<u8> {
    let ends = [span.least, span.greatest];
    marked_bytes(b"QR", allowance, &ends, measured, n)
}

fn marked_bytes(
    mark: &[u8; 2],
    allowance: u32,
    commands: &[i32],
    measured: &StateBox,
    n: usize,
) -> Vec<u8> {
    let mut bytes = mark.to_vec();
    bytes.extend(allowance.to_be_bytes());
    bytes.extend(commands.iter().flat_map(|command| command.to_be_bytes()));
    bytes.extend(pairs(measured, n));
    bytes
}

/// The bytes of a question: with one command's mark where the span has one command.
pub fn bytes_of(question: &Question, n: usize) -> Vec<u8> {
    let Question {
        allowance,
        span,
        measured,
    } = question;
    if span.least == span.greatest {
        question_bytes(*allowance, span.least, measured, n)
    } else {
        span_bytes(*allowance, *span, measured, n)
    }
}
