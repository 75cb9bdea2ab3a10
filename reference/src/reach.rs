//! Reach boxes: one step of face lifting, and a reach of several steps at one width.
//! The engine is generic over a `Watch`, which sees each step and may stop the reach.

use crate::boxes::{State, StateBox, VARIABLES};
use crate::changes::{Change, CommandEnd, End};
use crate::machine::{greatest_so_far, least_so_far, Clamp};
use crate::neighborhoods::Face;
use crate::rules::{self, Rule};
use crate::sheet::{Band, BandLaw, CommandRange, Kind, Refusal, Row, Sheet};
use crate::sheet::{START_LIMIT, TICKS_LIMIT};
use std::ops::ControlFlow;

/// A step that has not settled after this many rounds begins again with half its ticks.
const ROUNDS_PER_LENGTH: u32 = 8;

/// Which commands the ticks use.
#[derive(Clone, Copy, Debug, PartialEq, Eq)]
pub enum Law {
    /// The plain law: any command of the band's safety range, or those of the band's own law.
    Baseline,
    /// Any command from the least to the greatest, in every band; at each tick it may be another one.
    Span { least: i32, greatest: i32 },
}

impl Law {
    /// This command in every band and at every tick.
    pub fn command(command: i32) -> Law {
        Law::span(CommandRange::one(command))
    }

    pub fn span(span: CommandRange) -> Law {
        let CommandRange { least, greatest } = span;
        Law::Span { least, greatest }
    }
}

/// A settled step.
#[derive(Clone, Copy, Debug, PartialEq, Eq)]
pub struct Step {
    pub law: Law,
    pub ticks: u32,
    pub rounds: u32,
    pub start: StateBox,
    pub end: StateBox,
    pub swept: StateBox,
}

/// The end box, the swept box and the rounds of a reach.
#[derive(Clone, Copy, Debug, PartialEq, Eq)]
pub struct Reach {
    pub end: StateBox,
    pub swept: StateBox,
    pub rounds: u64,
}

/// Sees what the engine does. What is left as it is costs nothing.
pub trait Watch {
    /// The rule by which rates are bounded.
    const RULE: Rule = Rule::Parts;

    /// A round begins over this enclosure, in a step of so many ticks from the start box.
    #[inline]
    fn round(&mut self, _sheet: &Sheet, _start: &StateBox, _enclosure: &StateBox, _ticks: u32) {}

    /// A face looks at a band's change.
    #[inline]
    fn change(&mut self, _change: Change) {}

    /// A face looks at an end of a band's commands.
    #[inline]
    fn command(&mut self, _end: CommandEnd) {}

    /// The step begins again with this number of ticks.
    #[inline]
    fn halved(&mut self, _ticks: u32) {}

    /// A step has settled; `Break` fails the reach.
    #[inline]
    fn settled(&mut self, _step: &Step) -> ControlFlow<()> {
        ControlFlow::Continue(())
    }
}

/// Sees nothing.
pub struct NoWatch;

impl Watch for NoWatch {}

/// The rounds taken so far, and how many there may be.
#[derive(Clone, Copy, Debug)]
pub struct Budget {
    pub rounds: u64,
    pub allowance: u64,
}

impl Budget {
    pub fn limited(allowance: u64) -> Budget {
        Budget {
            rounds: 0,
            allowance,
        }
    }

    pub fn unlimited() -> Budget {
        Budget::limited(u64::MAX)
    }
}

/// Why a reach ended before its last tick.
#[derive(Clone, Copy, Debug, PartialEq, Eq)]
pub enum Stop {
    /// A round was due with the allowance used up.
    Spent,
    /// The watch stopped it.
    Failed,
}

/// How far each face moves in a tick.
#[derive(Clone, Copy, Default)]
pub(crate) struct Rates {
    pub(crate) lower: State,
    pub(crate) upper: State,
}

/// The least value of coefficient · x for x from `lower` to `upper`.
#[inline]
pub(crate) fn least_product(coefficient: i32, lower: i64, upper: i64) -> i64 {
    i64::from(coefficient) * if coefficient >= 0 { lower } else { upper }
}

/// The greatest value likewise.
#[inline]
pub(crate) fn greatest_product(coefficient: i32, lower: i64, upper: i64) -> i64 {
    i64::from(coefficient) * if coefficient >= 0 { upper } else { lower }
}

/// The least value of Σ coefficient·x over a box, side by side: each variable at the end that makes
/// its own term least.
#[inline]
fn least_sum<const N: usize>(coefficients: &[i32; VARIABLES], over: &StateBox) -> i64 {
    (0..N)
        .map(|j| least_product(coefficients[j], over.lower[j], over.upper[j]))
        .sum()
}

/// The greatest value likewise.
#[inline]
fn greatest_sum<const N: usize>(coefficients: &[i32; VARIABLES], over: &StateBox) -> i64 {
    (0..N)
        .map(|j| greatest_product(coefficients[j], over.lower[j], over.upper[j]))
        .sum()
}

/// The least value of a row's numerator over a box, with the least value of its term of the command.
#[inline]
pub(crate) fn least_numerator<const N: usize>(row: &Row, over: &StateBox, command: i64) -> i64 {
    command + i64::from(row.c) + least_sum::<N>(&row.a, over)
}

/// The greatest value likewise.
#[inline]
pub(crate) fn greatest_numerator<const N: usize>(row: &Row, over: &StateBox, command: i64) -> i64 {
    command + i64::from(row.c) + greatest_sum::<N>(&row.a, over)
}

/// The plain law follows the state on this sheet.
#[inline]
pub(crate) fn follows(law: Law, sheet: &Sheet) -> bool {
    law == Law::Baseline && sheet.kind() == Kind::Following
}

/// The least and the greatest command that the law has in a band, where they do not follow the state.
#[inline]
pub(crate) fn fixed_commands(law: Law, band: &Band) -> (i64, i64) {
    let (least, greatest) = match law {
        Law::Baseline => (band.safety.least, band.safety.greatest),
        Law::Span { least, greatest } => (least, greatest),
    };
    (i64::from(least), i64::from(greatest))
}

/// The least and the greatest value of a law's sum over a box.
#[inline]
pub(crate) fn law_sums<const N: usize>(law: &BandLaw, over: &StateBox) -> (i64, i64) {
    let constant = i64::from(law.constant);
    (
        constant + least_sum::<N>(&law.coefficients, over),
        constant + greatest_sum::<N>(&law.coefficients, over),
    )
}

/// A band's commands over a box. Where they follow the state, the box may be cut at one side and each
/// end is worked out from the law's sum: over the box, and what the cut changes in one term.
struct Commands<'a, const FOLLOWS: bool> {
    coefficients: &'a [i32; VARIABLES],
    clamp: Clamp,
    /// The commands, or the law's sum: its least and its greatest value.
    least: i64,
    greatest: i64,
}

impl<'a, const FOLLOWS: bool> Commands<'a, FOLLOWS> {
    #[inline]
    fn over<const N: usize>(law: Law, band: &'a Band, over: &StateBox) -> Self {
        let (least, greatest) = if FOLLOWS {
            law_sums::<N>(&band.law, over)
        } else {
            fixed_commands(law, band)
        };
        Commands {
            coefficients: &band.law.coefficients,
            clamp: Clamp::new(band.law.divisor, band.safety),
            least,
            greatest,
        }
    }

    /// The least command at the least sum, of which the cut has changed this much.
    #[inline]
    fn least_end<W: Watch>(&self, change: i64, watch: &mut W) -> i64 {
        let (sum, clamp) = (self.least + change, self.clamp);
        let end = End::Least;
        watch.command(CommandEnd { end, sum, clamp });
        clamp.least_command(sum)
    }

    /// The greatest command at the greatest sum, likewise.
    #[inline]
    fn greatest_end<W: Watch>(&self, change: i64, watch: &mut W) -> i64 {
        let (sum, clamp) = (self.greatest + change, self.clamp);
        let end = End::Greatest;
        watch.command(CommandEnd { end, sum, clamp });
        clamp.greatest_command(sum)
    }

    /// The least value of b·u where variable i's upper side is moved by `cut`, below 0 or 0: the sum's
    /// term of i changes where it is taken at that side.
    #[inline]
    fn least_term<W: Watch>(&self, b: i32, i: usize, cut: i64, watch: &mut W) -> i64 {
        let coefficient = i64::from(self.coefficients[i]);
        if !FOLLOWS {
            least_product(b, self.least, self.greatest)
        } else if b > 0 {
            i64::from(b) * self.least_end(coefficient.min(0) * cut, watch)
        } else if b < 0 {
            i64::from(b) * self.greatest_end(coefficient.max(0) * cut, watch)
        } else {
            0
        }
    }

    /// The greatest value where the lower side is moved by `cut`, above 0 or 0.
    #[inline]
    fn greatest_term<W: Watch>(&self, b: i32, i: usize, cut: i64, watch: &mut W) -> i64 {
        let coefficient = i64::from(self.coefficients[i]);
        if !FOLLOWS {
            greatest_product(b, self.least, self.greatest)
        } else if b > 0 {
            i64::from(b) * self.greatest_end(coefficient.min(0) * cut, watch)
        } else if b < 0 {
            i64::from(b) * self.least_end(coefficient.max(0) * cut, watch)
        } else {
            0
        }
    }
}

/// Where the neighborhoods end: the lower faces' upwards, the upper faces' downwards.
#[inline]
fn depths<const N: usize>(sheet: &Sheet, start: &StateBox, ticks: u32) -> StateBox {
    let mut depths = StateBox::default();
    for i in 0..N {
        let depth = i64::from(ticks + 1) * i64::from(sheet.caps[i]);
        depths.upper[i] = start.lower[i] + depth;
        depths.lower[i] = start.upper[i] - depth;
    }
    depths
}

/// The rates before any band is met; every bound is at most, or at least, that.
#[inline]
fn no_rates<const N: usize>(sheet: &Sheet) -> Rates {
    let mut rates = Rates::default();
    for i in 0..N {
        let cap = i64::from(sheet.caps[i]);
        rates.lower[i] = cap;
        rates.upper[i] = -cap;
    }
    rates
}

/// Puts one band's bounds to the rates. `part` is the enclosure's part in the band: a face's
/// neighborhood meets the band where it meets this part, and there only the face's own side differs.
#[inline]
fn bound_band<const N: usize, const FOLLOWS: bool, W: Watch>(
    sheet: &Sheet,
    law: Law,
    band: &Band,
    depths: &StateBox,
    part: &mut StateBox,
    rates: &mut Rates,
    watch: &mut W,
) {
    let commands = Commands::<FOLLOWS>::over::<N>(law, band, part);
    for (i, row) in band.rows[..N].iter().enumerate() {
        let cap = sheet.caps[i];
        let (lower, upper) = (part.lower[i], part.upper[i]);
        if lower <= depths.upper[i] {
            part.upper[i] = upper.min(depths.upper[i]);
            let command = commands.least_term(row.b, i, part.upper[i] - upper, watch);
            let numerator = least_numerator::<N>(row, part, command) - i64::from(row.d);
            watch.change(Change::new(i, Face::Lower, numerator, row.q, cap));
            rates.lower[i] = least_so_far(numerator, row.q, cap, rates.lower[i]);
            part.upper[i] = upper;
        }
        if depths.lower[i] <= upper {
            part.lower[i] = lower.max(depths.lower[i]);
            let command = commands.greatest_term(row.b, i, part.lower[i] - lower, watch);
            let numerator = greatest_numerator::<N>(row, part, command) + i64::from(row.d);
            watch.change(Change::new(i, Face::Upper, numerator, row.q, cap));
            rates.upper[i] = greatest_so_far(numerator, row.q, cap, rates.upper[i]);
            part.lower[i] = lower;
        }
    }
}

/// One round: the rate of every face over its neighborhood within the enclosure,
/// each band's row over the part of the neighborhood that lies in that band.
#[inline]
fn round<const N: usize, const FOLLOWS: bool, W: Watch>(
    sheet: &Sheet,
    law: Law,
    start: &StateBox,
    enclosure: &StateBox,
    ticks: u32,
    watch: &mut W,
) -> Rates {
    watch.round(sheet, start, enclosure, ticks);
    // The band variable is below N; so the compiler knows.
    let v = (sheet.band_variable as usize).min(N - 1);
    let depths = depths::<N>(sheet, start, ticks);
    let mut rates = no_rates::<N>(sheet);
    // From the last band down, so that what is left of the enclosure ends below the edge.
    let mut part = *enclosure;
    for band in sheet.bands().iter().rev() {
        let edge = i64::from(band.edge);
        if edge > enclosure.upper[v] {
            continue;
        }
        part.lower[v] = enclosure.lower[v].max(edge);
        bound_band::<N, FOLLOWS, W>(sheet, law, band, &depths, &mut part, &mut rates, watch);
        if edge <= enclosure.lower[v] {
            break;
        }
        part.upper[v] = edge - 1;
    }
    rates
}

/// The start box with each face moved by a number of rates.
#[inline]
fn moved<const N: usize>(start: &StateBox, rates: &Rates, times: u32) -> StateBox {
    let times = i64::from(times);
    let mut moved = *start;
    for i in 0..N {
        moved.lower[i] += times * rates.lower[i];
        moved.upper[i] += times * rates.upper[i];
    }
    moved
}

/// One lifted step from a start box; nothing where the allowance ends first.
#[inline]
fn step<const N: usize, const FOLLOWS: bool, W: Watch>(
    sheet: &Sheet,
    law: Law,
    start: &StateBox,
    ticks: u32,
    budget: &mut Budget,
    watch: &mut W,
) -> Option<Step> {
    let before = budget.rounds;
    let mut ticks = ticks;
    loop {
        let mut enclosure = *start;
        for _ in 0..ROUNDS_PER_LENGTH {
            if budget.rounds == budget.allowance {
                return None;
            }
            budget.rounds += 1;
            let rates = match W::RULE {
                Rule::Parts => round::<N, FOLLOWS, W>(sheet, law, start, &enclosure, ticks, watch),
                rule => rules::round(rule, sheet, law, start, &enclosure, ticks),
            };
            let on_the_way = start.hull_in::<N>(&moved::<N>(start, &rates, ticks - 1));
            if on_the_way.inside_in::<N>(&enclosure) {
                let end = moved::<N>(start, &rates, ticks);
                return Some(Step {
                    law,
                    ticks,
                    rounds: (budget.rounds - before) as u32,
                    start: *start,
                    end,
                    swept: start.hull_in::<N>(&end),
                });
            }
            enclosure = enclosure.hull_in::<N>(&on_the_way);
        }
        ticks /= 2;
        watch.halved(ticks);
    }
}

/// Steps of at most `width` ticks until `ticks` are covered; gives the last end box.
pub fn advance<W: Watch>(
    sheet: &Sheet,
    law: Law,
    start: &StateBox,
    ticks: u32,
    width: u32,
    budget: &mut Budget,
    watch: &mut W,
) -> Result<StateBox, Stop> {
    // The engine is compiled once for each number of variables.
    match sheet.variables {
        1 => advance_in::<1, W>(sheet, law, start, ticks, width, budget, watch),
        2 => advance_in::<2, W>(sheet, law, start, ticks, width, budget, watch),
        3 => advance_in::<3, W>(sheet, law, start, ticks, width, budget, watch),
        4 => advance_in::<4, W>(sheet, law, start, ticks, width, budget, watch),
        5 => advance_in::<5, W>(sheet, law, start, ticks, width, budget, watch),
        _ => advance_in::<6, W>(sheet, law, start, ticks, width, budget, watch),
    }
}

/// And for each of these once with commands that follow the state and once without.
fn advance_in<const N: usize, W: Watch>(
    sheet: &Sheet,
    law: Law,
    start: &StateBox,
    ticks: u32,
    width: u32,
    budget: &mut Budget,
    watch: &mut W,
) -> Result<StateBox, Stop> {
    if follows(law, sheet) {
        advance_by::<N, true, W>(sheet, law, start, ticks, width, budget, watch)
    } else {
        advance_by::<N, false, W>(sheet, law, start, ticks, width, budget, watch)
    }
}

fn advance_by<const N: usize, const FOLLOWS: bool, W: Watch>(
    sheet: &Sheet,
    law: Law,
    start: &StateBox,
    ticks: u32,
    width: u32,
    budget: &mut Budget,
    watch: &mut W,
) -> Result<StateBox, Stop> {
    let mut at = *start;
    let mut left = ticks;
    while left > 0 {
        let width = width.min(left);
        let step = step::<N, FOLLOWS, W>(sheet, law, &at, width, budget, watch);
        let step = step.ok_or(Stop::Spent)?;
        if watch.settled(&step).is_break() {
            return Err(Stop::Failed);
        }
        at = step.end;
        left -= step.ticks;
    }
    Ok(at)
}

/// Grows the swept box of a reach.
struct Sweep {
    swept: StateBox,
}

impl Watch for Sweep {
    #[inline]
    fn settled(&mut self, step: &Step) -> ControlFlow<()> {
        self.swept = self.swept.hull(&step.swept);
        ControlFlow::Continue(())
    }
}

/// A reach of `ticks` ticks at a width from a caller's start box.
pub fn reach(
    sheet: &Sheet,
    ticks: u32,
    width: u32,
    law: Law,
    start: &StateBox,
) -> Result<Reach, Refusal> {
    let limit = TICKS_LIMIT as u32;
    if ticks > limit || width == 0 || width > limit {
        return Err(Refusal::Reach);
    }
    if let Law::Span { least, greatest } = law {
        if !sheet
            .commands
            .holds_range(&CommandRange { least, greatest })
        {
            return Err(Refusal::Command);
        }
    }
    if !start.ordered_within(sheet.n(), START_LIMIT) {
        return Err(Refusal::Start);
    }
    let mut budget = Budget::unlimited();
    let mut sweep = Sweep { swept: *start };
    match advance(sheet, law, start, ticks, width, &mut budget, &mut sweep) {
        Ok(end) => Ok(Reach {
            end,
            swept: sweep.swept,
            rounds: budget.rounds,
        }),
        Err(_) => unreachable!("neither the budget nor the watch stops this reach"),
    }
}
