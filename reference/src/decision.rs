//! Decisions: the question, attempts at ever smaller widths, the recovery check,
//! and the one number that the drive gets.

use crate::boxes::StateBox;
use crate::changes::{Change, CommandEnd};
use crate::reach::{advance, Budget, Law, NoWatch, Step, Stop, Watch};
use crate::rules::Rule;
use crate::sheet::{self, CommandRange, Fields, Refusal, Sheet, START_LIMIT};
use std::ops::ControlFlow;

const ALLOWANCE_LIMIT: u32 = 1_000_000;

/// A question's values.
#[derive(Clone, Copy, Debug, PartialEq, Eq)]
pub struct Question {
    pub allowance: u32,
    /// The commands that the period may use; of one command where the mark is `QS`.
    pub span: CommandRange,
    pub measured: StateBox,
}

/// The answer to a question.
#[derive(Clone, Copy, Debug, PartialEq, Eq)]
pub enum Decision {
    Keep { width: u32, rounds: u64 },
    Finest { width: u32, rounds: u64 },
    Spent { width: u32, rounds: u64 },
    Refused(Refusal),
}

/// The answer of the recovery check.
#[derive(Clone, Copy, Debug, PartialEq, Eq)]
pub enum RecoveryCheck {
    Pass { width: u32, rounds: u64 },
    Fail { width: u32, rounds: u64 },
    Refused(Refusal),
}

/// Mistakes that can be switched on, to see whether a test finds them. By default none.
#[derive(Clone, Copy, Debug, Default, PartialEq, Eq)]
pub struct Faults {
    /// The unsafe boxes are compared with end boxes only, not with swept boxes.
    pub end_boxes_only: bool,
    /// The baseline reach starts from the measured box.
    pub baseline_from_measured: bool,
    /// What of a span its rates are bounded over.
    pub bounded: Bounded,
}

/// What of a span the rates of its ticks are bounded over.
#[derive(Clone, Copy, Debug, Default, PartialEq, Eq)]
pub enum Bounded {
    /// All of it: the outer one of b·least and b·greatest, as is right.
    #[default]
    Outer,
    /// The inner one of the two.
    Inner,
    /// The least command alone.
    Least,
    /// The greatest command alone.
    Greatest,
}

/// The steps of one attempt, for pictures and counts.
#[derive(Clone, Debug)]
pub struct Trace {
    pub steps: Vec<Step>,
    pub rounds: u64,
    pub succeeded: bool,
}

fn pack(code: u64, width: u64, rounds: u64) -> u64 {
    (code << 48) + (width << 32) + rounds
}

/// A refusal as the drive's number.
pub fn pack_refusal(refusal: Refusal) -> u64 {
    pack(3, u64::from(refusal.number()), 0)
}

impl Decision {
    pub fn pack(self) -> u64 {
        match self {
            Decision::Keep { width, rounds } => pack(0, u64::from(width), rounds),
            Decision::Finest { width, rounds } => pack(1, u64::from(width), rounds),
            Decision::Spent { width, rounds } => pack(2, u64::from(width), rounds),
            Decision::Refused(refusal) => pack_refusal(refusal),
        }
    }
}

impl RecoveryCheck {
    pub fn pack(self) -> u64 {
        match self {
            RecoveryCheck::Pass { width, rounds } => pack(0, u64::from(width), rounds),
            RecoveryCheck::Fail { width, rounds } => pack(1, u64::from(width), rounds),
            RecoveryCheck::Refused(refusal) => pack_refusal(refusal),
        }
    }
}

/// The length of a question by the mark that these bytes begin with; nothing where it is unknown.
pub fn question_length(bytes: &[u8], variables: usize) -> Option<usize> {
    match bytes.get(..2)? {
        b"QS" => Some(10 + 8 * variables),
        b"QR" => Some(14 + 8 * variables),
        _ => None,
    }
}

/// Reads the allowance and the commands, which stand before a question's pairs, from bytes that have
/// all of them.
fn read_head(sheet: &Sheet, fields: &mut Fields) -> Result<(u32, CommandRange), Refusal> {
    let one_command = fields.mark(b"QS");
    let allowance = fields.u32();
    if allowance > ALLOWANCE_LIMIT {
        return Err(Refusal::Allowance);
    }
    let least = fields.i32();
    let greatest = if one_command { least } else { fields.i32() };
    let span = CommandRange { least, greatest };
    if !sheet.commands.holds_range(&span) {
        return Err(Refusal::Command);
    }
    Ok((allowance, span))
}

/// Tests the bytes before a question's pairs where they stand alone.
pub fn test_head(sheet: &Sheet, head: &[u8]) -> Result<(), Refusal> {
    if question_length(head, 0) != Some(head.len()) {
        return Err(Refusal::Question);
    }
    read_head(sheet, &mut Fields(head)).map(|_| ())
}

/// Reads a question from all of these bytes.
pub fn read_question(sheet: &Sheet, bytes: &[u8]) -> Result<Question, Refusal> {
    let n = sheet.n();
    if question_length(bytes, n) != Some(bytes.len()) {
        return Err(Refusal::Question);
    }
    let mut fields = Fields(bytes);
    let (allowance, span) = read_head(sheet, &mut fields)?;
    let measured = fields.sides(n);
    if !measured.ordered_within(n, START_LIMIT) {
        return Err(Refusal::Start);
    }
    Ok(Question {
        allowance,
        span,
        measured,
    })
}

/// Passes everything on to the caller's watch and fails where a box meets an unsafe one.
struct Safety<'a, W> {
    sheet: &'a Sheet,
    faults: Faults,
    watch: &'a mut W,
}

impl<W: Watch> Watch for Safety<'_, W> {
    const RULE: Rule = W::RULE;

    #[inline]
    fn round(&mut self, sheet: &Sheet, start: &StateBox, enclosure: &StateBox, ticks: u32) {
        self.watch.round(sheet, start, enclosure, ticks);
    }

    #[inline]
    fn change(&mut self, change: Change) {
        self.watch.change(change);
    }

    #[inline]
    fn command(&mut self, end: CommandEnd) {
        self.watch.command(end);
    }

    #[inline]
    fn halved(&mut self, ticks: u32) {
        self.watch.halved(ticks);
    }

    #[inline]
    fn settled(&mut self, step: &Step) -> ControlFlow<()> {
        self.watch.settled(step)?;
        let tested = if self.faults.end_boxes_only {
            &step.end
        } else {
            &step.swept
        };
        if self.sheet.unsafe_boxes().iter().any(|u| u.meets(tested)) {
            return ControlFlow::Break(());
        }
        ControlFlow::Continue(())
    }
}

/// One reach of an attempt: a number of ticks under a law.
type Leg = (Law, u32);

/// All legs in turn at one width, each from the last one's end box.
fn attempt<W: Watch>(
    sheet: &Sheet,
    legs: &[Leg],
    start: &StateBox,
    width: u32,
    budget: &mut Budget,
    faults: Faults,
    watch: &mut W,
) -> Result<(), Stop> {
    let mut safety = Safety {
        sheet,
        faults,
        watch,
    };
    let mut at = *start;
    for &(law, ticks) in legs {
        if faults.baseline_from_measured {
            at = *start;
        }
        at = advance(sheet, law, &at, ticks, width, budget, &mut safety)?;
    }
    if at.inside(&sheet.recovery) {
        Ok(())
    } else {
        Err(Stop::Failed)
    }
}

/// How the attempts at all widths ended.
enum Outcome {
    Succeeded,
    Failed,
    Spent,
}

/// Attempts at the first width, then at half of it and so on to 1.
fn refine<W: Watch>(
    sheet: &Sheet,
    legs: &[Leg],
    start: &StateBox,
    budget: &mut Budget,
    faults: Faults,
    watch: &mut W,
) -> (Outcome, u32) {
    let mut width = legs.iter().map(|leg| leg.1).max().unwrap_or(1);
    loop {
        match attempt(sheet, legs, start, width, budget, faults, watch) {
            Ok(()) => return (Outcome::Succeeded, width),
            Err(Stop::Spent) => return (Outcome::Spent, width),
            Err(Stop::Failed) if width == 1 => return (Outcome::Failed, width),
            Err(Stop::Failed) => width /= 2,
        }
    }
}

fn decision_legs(sheet: &Sheet, span: CommandRange, bounded: Bounded) -> [Leg; 2] {
    let CommandRange { least, greatest } = span;
    let law = match bounded {
        Bounded::Outer => Law::span(span),
        // A term takes the end that is the outer one of a span in order.
        Bounded::Inner => Law::Span {
            least: greatest,
            greatest: least,
        },
        Bounded::Least => Law::command(least),
        Bounded::Greatest => Law::command(greatest),
    };
    [
        (law, sheet.delta as u32),
        (Law::Baseline, sheet.alpha as u32),
    ]
}

/// The decision on a question that was read, seen by a watch and with faults switched on.
pub fn decide_watched<W: Watch>(
    sheet: &Sheet,
    question: &Question,
    faults: Faults,
    watch: &mut W,
) -> Decision {
    let mut budget = Budget::limited(u64::from(question.allowance));
    let legs = decision_legs(sheet, question.span, faults.bounded);
    let (outcome, width) = refine(sheet, &legs, &question.measured, &mut budget, faults, watch);
    let rounds = budget.rounds;
    match outcome {
        Outcome::Succeeded => Decision::Keep { width, rounds },
        Outcome::Failed => Decision::Finest { width, rounds },
        Outcome::Spent => Decision::Spent { width, rounds },
    }
}

/// The decision on a sheet's and a question's bytes.
pub fn decide(sheet: &[u8], question: &[u8]) -> Decision {
    let read = || {
        let sheet = sheet::read(sheet)?;
        let question = read_question(&sheet, question)?;
        Ok((sheet, question))
    };
    match read() {
        Ok((sheet, question)) => decide_watched(&sheet, &question, Faults::default(), &mut NoWatch),
        Err(refusal) => Decision::Refused(refusal),
    }
}

/// The recovery check of a sheet that was read, seen by a watch.
pub fn check_recovery_watched<W: Watch>(sheet: &Sheet, watch: &mut W) -> RecoveryCheck {
    let mut budget = Budget::unlimited();
    let legs = [(Law::Baseline, sheet.rho as u32)];
    let (outcome, width) = refine(
        sheet,
        &legs,
        &sheet.recovery,
        &mut budget,
        Faults::default(),
        watch,
    );
    let rounds = budget.rounds;
    match outcome {
        Outcome::Succeeded => RecoveryCheck::Pass { width, rounds },
        Outcome::Failed => RecoveryCheck::Fail { width, rounds },
        Outcome::Spent => unreachable!("the recovery check has no allowance"),
    }
}

/// The recovery check of a sheet's bytes.
pub fn check_recovery(sheet: &[u8]) -> RecoveryCheck {
    match sheet::read(sheet) {
        Ok(sheet) => check_recovery_watched(&sheet, &mut NoWatch),
        Err(refusal) => RecoveryCheck::Refused(refusal),
    }
}

/// Collects the steps.
struct Collector(Vec<Step>);

impl Watch for Collector {
    fn settled(&mut self, step: &Step) -> ControlFlow<()> {
        self.0.push(*step);
        ControlFlow::Continue(())
    }
}

/// The steps of the attempt at one width; the allowance does not end it.
pub fn trace(sheet: &Sheet, question: &Question, width: u32, faults: Faults) -> Trace {
    let legs = decision_legs(sheet, question.span, faults.bounded);
    trace_legs(sheet, &legs, &question.measured, width, faults)
}

/// The steps of the recovery check at one width.
pub fn trace_recovery(sheet: &Sheet, width: u32) -> Trace {
    let legs = [(Law::Baseline, sheet.rho as u32)];
    trace_legs(sheet, &legs, &sheet.recovery, width, Faults::default())
}

fn trace_legs(sheet: &Sheet, legs: &[Leg], start: &StateBox, width: u32, faults: Faults) -> Trace {
    let mut budget = Budget::unlimited();
    let mut collector = Collector(Vec::new());
    let result = attempt(
        sheet,
        legs,
        start,
        width.max(1),
        &mut budget,
        faults,
        &mut collector,
    );
    Trace {
        steps: collector.0,
        rounds: budget.rounds,
        succeeded: result.is_ok(),
    }
}
