//! Prints `examples.txt`: worked examples with the answers of the second guard.
//! Each one names what it covers, and the program stops where it does not cover it.

use second_guard::boxes::{StateBox, VARIABLES};
use second_guard::changes::{At, Change, CommandEnd, End, Place, ALL_AT};
use second_guard::decision::{
    check_recovery_watched, decide, decide_watched, read_question, Bounded, Decision, Faults,
    Question, RecoveryCheck,
};
use second_guard::neighborhoods::{neighborhoods, Face};
use second_guard::reach::{advance, reach, Budget, Law, Step, Watch};
use second_guard::readings::{decide_slices, read_readings, Reading};
use second_guard::rules::Rule;
use second_guard::sheet::{self, Band, BandLaw, CommandRange, Kind, Row, Sheet};
use second_guard::whole::WholeNeighborhoods;
use std::fmt::Write;
use std::ops::ControlFlow;

/// What an example shows.
#[derive(Clone, Copy, Debug, PartialEq, Eq)]
enum Covers {
    Variables(i32),
    /// A neighborhood over this number of bands.
    BandsMet(usize),
    /// A neighborhood of the band variable that its depth cuts and an edge.
    CutTwice,
    /// A neighborhood whose upper side is an edge.
    EndsAtEdge,
    /// A neighborhood whose upper side is just below an edge.
    EndsBelowEdge,
    /// Before paper 3 of document 02, with rates over whole neighborhoods, a reach had other boxes,
    /// a decision and a recovery check another answer.
    OtherBoxesBefore,
    HandedOverBefore,
    KeptBefore,
    FailedBefore,
    PassedBefore,
    /// A row with a spread that a round used.
    Spread,
    NegativeCoefficient,
    /// A change at its cap or beyond it.
    Clamped,
    /// A change strictly between its caps.
    Unclamped,
    /// Changes of such faces whose N - d or N + d lies just there.
    Numerators(Face, &'static [At]),
    /// A step that begins again so often.
    Halvings(u32),
    Keep,
    Finest,
    Spent,
    /// The answer's width is the first, second ... in turn.
    WidthInTurn(u32),
    WidthOne,
    /// The allowance was used up by a failed attempt at the width before.
    SpentBetweenWidths,
    /// A keep whose last round is the allowance's last.
    KeepWithExactAllowance,
    /// An attempt that failed at an unsafe box before its last tick.
    UnsafeMet,
    DeltaNotAlpha,
    CheckPasses,
    CheckFails,
    /// A reach under a command, or under the baseline.
    UnderCommand,
    UnderBaseline,
    /// A reach of no ticks.
    NoTicks,
    /// A width above the ticks left.
    ShorterLastStep,
    /// A `QR` with equal ends has the answer of `QS`.
    SpanOfOne,
    WiderSpan,
    /// The least and the greatest command alone are both kept.
    EndsKept,
    CommandForward,
    CommandBackward,
    /// A guard that bounds only so much of a span has another answer.
    OtherIfBounded(Bounded),
    /// Bands `BF`, whose laws follow the state.
    Following,
    /// An end of a law's commands that lies there in the safety range.
    LawEnd(End, Place),
    /// A guard that bounds a law by another rule has another answer.
    OtherIfLaw(Rule),
    /// Readings that are a value with a tolerance, or a pair.
    ByPoint,
    ByPair,
    /// A reading between two whole numbers.
    BetweenWhole,
    /// A tolerance between two whole numbers.
    Widened,
    /// A guard that rounds readings otherwise has another answer.
    OtherIfRounded(Rounding),
    Refused(u8),
}

const CUT_TWICE: &str = "a neighborhood of the band variable cut by its depth and by an edge";

impl Covers {
    fn text(self) -> String {
        match self {
            Covers::Variables(n) => format!("n = {n}"),
            Covers::BandsMet(1) => "a neighborhood over one band".into(),
            Covers::BandsMet(bands) => format!("a neighborhood over {bands} bands"),
            Covers::CutTwice => CUT_TWICE.into(),
            Covers::EndsAtEdge => "a neighborhood up to an edge".into(),
            Covers::EndsBelowEdge => "a neighborhood up to just below an edge".into(),
            Covers::OtherBoxesBefore => "other boxes before paper 3".into(),
            Covers::HandedOverBefore => "handed over before paper 3".into(),
            Covers::KeptBefore => "kept before paper 3".into(),
            Covers::FailedBefore => "failed before paper 3".into(),
            Covers::PassedBefore => "passed before paper 3".into(),
            Covers::Spread => "a spread".into(),
            Covers::NegativeCoefficient => "negative coefficients".into(),
            Covers::Clamped => "clamped changes".into(),
            Covers::Unclamped => "unclamped changes".into(),
            Covers::Numerators(face, places) => numerators_text(face, places),
            Covers::Halvings(times) => format!("a step that halves {times} times"),
            Covers::Keep => "keep".into(),
            Covers::Finest => "finest".into(),
            Covers::Spent => "spent".into(),
            Covers::WidthInTurn(turn) => {
                let ordinal = ["first", "second", "third", "fourth"][turn as usize - 1];
                format!("the {ordinal} width")
            }
            Covers::WidthOne => "width 1".into(),
            Covers::SpentBetweenWidths => "the allowance ends with a failed attempt".into(),
            Covers::KeepWithExactAllowance => "the last round allowed".into(),
            Covers::UnsafeMet => "a no-go box met before the last tick".into(),
            Covers::DeltaNotAlpha => "delta other than alpha".into(),
            Covers::CheckPasses => "a recovery check that passes".into(),
            Covers::CheckFails => "a recovery check that fails".into(),
            Covers::UnderCommand => "under a command".into(),
            Covers::UnderBaseline => "under the plain law".into(),
            Covers::NoTicks => "no ticks".into(),
            Covers::ShorterLastStep => "a last step below the width".into(),
            Covers::Refused(number) => format!("refused by {number}"),
            Covers::SpanOfOne => "a span of one command, answered as that command".into(),
            Covers::WiderSpan => "a span of several commands".into(),
            Covers::EndsKept => "a span whose least and whose greatest command are kept".into(),
            Covers::CommandForward => "a row with b above 0".into(),
            Covers::CommandBackward => "a row with b below 0".into(),
            Covers::OtherIfBounded(bounded) => other_if_text(bounded).into(),
            Covers::Following => "bands with laws".into(),
            Covers::LawEnd(end, place) => law_end_text(end, place),
            Covers::OtherIfLaw(rule) => other_rule_text(rule).into(),
            Covers::ByPoint => "a value with its tolerance".into(),
            Covers::ByPair => "a lower and an upper value".into(),
            Covers::BetweenWhole => "a value between two whole numbers".into(),
            Covers::Widened => "a tolerance between two whole numbers".into(),
            Covers::OtherIfRounded(rounding) => other_rounding_text(rounding).into(),
        }
    }
}

/// How a wrong guard rounds a reading.
#[derive(Clone, Copy, Debug, PartialEq, Eq)]
enum Rounding {
    TowardZero,
    ToleranceTowardZero,
}

fn other_rounding_text(rounding: Rounding) -> &'static str {
    match rounding {
        Rounding::TowardZero => "another answer by values rounded toward zero",
        Rounding::ToleranceTowardZero => "another answer by tolerances rounded toward zero",
    }
}

impl Rounding {
    /// The sides of a reading that is not refused.
    fn sides(self, reading: Reading) -> (i64, i64) {
        let value = |x: f32, upper: bool| match self {
            Rounding::TowardZero => x.trunc() as i64,
            Rounding::ToleranceTowardZero if upper => x.ceil() as i64,
            Rounding::ToleranceTowardZero => x.floor() as i64,
        };
        match reading {
            Reading::Point {
                value: x,
                tolerance,
            } => {
                let wider = match self {
                    Rounding::TowardZero => tolerance.ceil(),
                    Rounding::ToleranceTowardZero => tolerance.trunc(),
                } as i64;
                (value(x, false) - wider, value(x, true) + wider)
            }
            Reading::Pair { lower, upper } => (value(lower, false), value(upper, true)),
            Reading::Missing => (0, 0),
        }
    }
}

fn law_end_text(end: End, place: Place) -> String {
    let end = match end {
        End::Least => "least",
        End::Greatest => "greatest",
    };
    match place {
        Place::Least => format!("a law's {end} command clamped to the least"),
        Place::Between => format!("a law's {end} command not clamped"),
        Place::Greatest => format!("a law's {end} command clamped to the greatest"),
    }
}

/// The rule of a wrong guard that answers otherwise.
fn other_rule_text(rule: Rule) -> &'static str {
    match rule {
        Rule::Parts => "another answer by the rule itself",
        Rule::Whole => "another answer by rows and laws over whole neighborhoods",
        Rule::LawOverWhole => "another answer by laws over whole neighborhoods",
        Rule::LawInTheMiddle => "another answer by laws in the middle of a part",
        Rule::LawFromItsLeast => "another answer by the least of a law's sum alone",
        Rule::LawFromItsGreatest => "another answer by the greatest of a law's sum alone",
        Rule::LawRoundedInward => "another answer by laws rounded inward",
        Rule::LawWithinTheHead => "another answer by laws clamped to the head's commands",
    }
}

/// What of a span a wrong guard bounds that answers otherwise.
fn other_if_text(bounded: Bounded) -> &'static str {
    match bounded {
        Bounded::Outer => "another answer by the outer end",
        Bounded::Inner => "another answer by the inner end",
        Bounded::Least => "another answer by the least command alone",
        Bounded::Greatest => "another answer by the greatest command alone",
    }
}

/// Numerators as they are written.
fn numerators_text(face: Face, places: &[At]) -> String {
    let texts: Vec<&str> = places.iter().map(|at| at.text()).collect();
    let sign = match face {
        Face::Lower => "-",
        Face::Upper => "+",
    };
    format!("N {sign} d at {}", texts.join(", "))
}

/// What all examples together must show, besides all numerators of `ALL_AT` on either face.
const REQUIRED: &[Covers] = &[
    Covers::Variables(1),
    Covers::Variables(2),
    Covers::Variables(3),
    Covers::Variables(4),
    Covers::Variables(5),
    Covers::Variables(6),
    Covers::BandsMet(2),
    Covers::BandsMet(3),
    Covers::CutTwice,
    Covers::EndsAtEdge,
    Covers::EndsBelowEdge,
    Covers::OtherBoxesBefore,
    Covers::HandedOverBefore,
    Covers::KeptBefore,
    Covers::FailedBefore,
    Covers::PassedBefore,
    Covers::Spread,
    Covers::NegativeCoefficient,
    Covers::Clamped,
    Covers::Unclamped,
    Covers::Halvings(2),
    Covers::Keep,
    Covers::Finest,
    Covers::Spent,
    Covers::WidthInTurn(1),
    Covers::WidthInTurn(2),
    Covers::WidthInTurn(3),
    Covers::WidthOne,
    Covers::SpentBetweenWidths,
    Covers::KeepWithExactAllowance,
    Covers::UnsafeMet,
    Covers::DeltaNotAlpha,
    Covers::CheckPasses,
    Covers::CheckFails,
    Covers::UnderCommand,
    Covers::UnderBaseline,
    Covers::NoTicks,
    Covers::ShorterLastStep,
    Covers::SpanOfOne,
    Covers::WiderSpan,
    Covers::EndsKept,
    Covers::CommandForward,
    Covers::CommandBackward,
    Covers::OtherIfBounded(Bounded::Inner),
    Covers::OtherIfBounded(Bounded::Least),
    Covers::OtherIfBounded(Bounded::Greatest),
    Covers::Following,
    Covers::LawEnd(End::Least, Place::Least),
    Covers::LawEnd(End::Least, Place::Between),
    Covers::LawEnd(End::Least, Place::Greatest),
    Covers::LawEnd(End::Greatest, Place::Least),
    Covers::LawEnd(End::Greatest, Place::Between),
    Covers::LawEnd(End::Greatest, Place::Greatest),
    Covers::OtherIfLaw(Rule::LawOverWhole),
    Covers::OtherIfLaw(Rule::LawInTheMiddle),
    Covers::OtherIfLaw(Rule::LawFromItsLeast),
    Covers::OtherIfLaw(Rule::LawWithinTheHead),
    Covers::ByPoint,
    Covers::ByPair,
    Covers::BetweenWhole,
    Covers::Widened,
    Covers::OtherIfRounded(Rounding::TowardZero),
    Covers::OtherIfRounded(Rounding::ToleranceTowardZero),
    Covers::Refused(15),
    Covers::Refused(18),
    Covers::Refused(19),
];

/// The most rounds an example may take.
const ROUNDS: u64 = 60;

/// Counts what the engine did.
#[derive(Default)]
struct Counts {
    bands_met: [bool; sheet::BANDS + 1],
    cut_twice: bool,
    ends_at_edge: bool,
    ends_below_edge: bool,
    clamped: u64,
    unclamped: u64,
    changes: Vec<Change>,
    law_ends: Vec<(End, Place)>,
    halvings: u32,
    most_halvings: u32,
    steps: Vec<Step>,
}

impl Counts {
    /// A face of this kind had its numerator at each of the places.
    fn all_at(&self, face: Face, places: &[At]) -> bool {
        let of_face = || self.changes.iter().filter(|change| change.face == face);
        places
            .iter()
            .all(|&at| of_face().any(|change| change.is_at(at)))
    }
}

impl Watch for Counts {
    fn round(&mut self, sheet: &Sheet, start: &StateBox, enclosure: &StateBox, ticks: u32) {
        for around in neighborhoods(sheet, start, enclosure, ticks) {
            self.bands_met[around.bands.len()] = true;
            self.cut_twice |= around.cut_twice(sheet);
            self.ends_at_edge |= around.edge_at(sheet, Face::Upper, 0);
            self.ends_below_edge |= around.edge_at(sheet, Face::Upper, 1);
        }
    }

    fn change(&mut self, change: Change) {
        match change.place() {
            Place::Between => self.unclamped += 1,
            Place::Least | Place::Greatest => self.clamped += 1,
        }
        self.changes.push(change);
    }

    fn command(&mut self, end: CommandEnd) {
        self.law_ends.push((end.end, end.place()));
    }

    fn halved(&mut self, _ticks: u32) {
        self.halvings += 1;
        self.most_halvings = self.most_halvings.max(self.halvings);
    }

    fn settled(&mut self, step: &Step) -> ControlFlow<()> {
        self.halvings = 0;
        self.steps.push(*step);
        ControlFlow::Continue(())
    }
}

/// What is asked of the guard.
enum Call {
    Decide(Mark, Question),
    /// A decision by readings, with the question that they come to.
    Readings(Mark, Question, Vec<Reading>),
    Check,
    Reach {
        ticks: u32,
        width: u32,
        law: Law,
        start: StateBox,
    },
}

/// A question's mark: of one command or of a span.
#[derive(Clone, Copy)]
enum Mark {
    One,
    Span,
}

struct Example {
    name: &'static str,
    sheet: Sheet,
    call: Call,
    covers: Vec<Covers>,
}

fn sides<const N: usize>(pairs: [(i64, i64); N]) -> StateBox {
    let mut sides = StateBox::default();
    for (i, (lower, upper)) in pairs.into_iter().enumerate() {
        sides.lower[i] = lower;
        sides.upper[i] = upper;
    }
    sides
}

fn row<const N: usize>(a: [i32; N], b: i32, c: i32, d: i32, q: i32) -> Row {
    let mut row = Row {
        a: [0; VARIABLES],
        b,
        c,
        d,
        q,
    };
    row.a[..N].copy_from_slice(&a);
    row
}

fn band<const N: usize>(edge: i32, safety: (i32, i32), rows: [Row; N]) -> Band {
    let mut band = Band {
        edge,
        safety: CommandRange {
            least: safety.0,
            greatest: safety.1,
        },
        ..Band::default()
    };
    band.rows[..N].copy_from_slice(&rows);
    band
}

/// The band with the law (Σ coefficient·x + constant)/divisor.
fn led<const N: usize>(
    mut band: Band,
    coefficients: [i32; N],
    constant: i32,
    divisor: i32,
) -> Band {
    band.law = BandLaw {
        constant,
        divisor,
        ..BandLaw::default()
    };
    band.law.coefficients[..N].copy_from_slice(&coefficients);
    band
}

/// A sheet without bands and boxes yet.
fn head<const N: usize>(
    band_variable: i32,
    times: (i32, i32, i32),
    commands: (i32, i32),
    caps: [i32; N],
) -> Sheet {
    let mut sheet = Sheet {
        variables: N as i32,
        band_variable,
        delta: times.0,
        alpha: times.1,
        rho: times.2,
        commands: CommandRange {
            least: commands.0,
            greatest: commands.1,
        },
        ..Sheet::default()
    };
    sheet.caps[..N].copy_from_slice(&caps);
    sheet
}

fn with<const B: usize, const U: usize>(
    mut sheet: Sheet,
    bands: [Band; B],
    unsafe_boxes: [StateBox; U],
    recovery: StateBox,
) -> Sheet {
    sheet.band_count = B as i32;
    sheet.bands[..B].copy_from_slice(&bands);
    sheet.unsafe_count = U as i32;
    sheet.unsafe_boxes[..U].copy_from_slice(&unsafe_boxes);
    sheet.recovery = recovery;
    sheet
}

const FIRST: i32 = sheet::FIRST_EDGE;

/// A sledge with place and speed, and three bands of the place.
fn sledge(recovery: StateBox) -> Sheet {
    let place = row([0, 1], 0, 0, 1, 4);
    with(
        head(0, (4, 8, 8), (-20, 20), [8, 6]),
        [
            band(FIRST, (0, 5), [place, row([-1, -6], 4, 0, 3, 16)]),
            band(0, (-2, 2), [place, row([-2, -6], 4, 0, 3, 16)]),
            band(
                40,
                (-10, -5),
                [row([0, 1], 0, 0, 2, 4), row([-2, -8], 4, 10, 5, 16)],
            ),
        ],
        [sides([(1_000, 2_000_000), (-2_000_000, 2_000_000)])],
        recovery,
    )
}

/// The sledge with a no-go box at place 10 with these speeds.
fn sledge_at(speeds: (i64, i64), recovery: StateBox) -> Sheet {
    let mut sheet = sledge(recovery);
    sheet.unsafe_boxes[0] = sides([(10, 10), speeds]);
    sheet
}

/// Grows slowly away from 0, so that long steps do not settle.
fn slow_growth() -> Sheet {
    let grow = row([1, 0], 0, 0, 0, 4);
    with(
        head(1, (8, 1, 4), (-9, 9), [1_000, 3]),
        [
            band(FIRST, (0, 0), [grow, row([0, -1], 1, 0, 0, 4)]),
            band(50, (0, 0), [grow, row([0, -1], 1, 0, 0, 2)]),
        ],
        [sides([(-2_000_000, -5_000), (-2_000_000, 2_000_000)])],
        sides([(0, 3_000), (-60, 60)]),
    )
}

/// Four variables in a chain, two bands of the last one.
fn chain() -> Sheet {
    let rows = |pull| {
        [
            row([-2, 1, 0, 0], 1, 0, 0, 16),
            row([1, -3, 1, 0], 0, 2, 1, 16),
            row([0, 1, -3, 1], -1, 0, 2, 16),
            row([0, 0, 1, pull], 2, -1, 3, 16),
        ]
    };
    with(
        head(3, (3, 5, 4), (-30, 30), [4, 4, 4, 5]),
        [band(FIRST, (-1, 1), rows(-4)), band(5, (-3, 0), rows(-6))],
        [
            sides([(-100, 100), (-90, -60), (-100, 100), (-100, 100)]),
            sides([(60, 90), (-100, 100), (-100, 100), (-100, 100)]),
        ],
        sides([(-40, 40), (-40, 40), (-40, 40), (-40, 40)]),
    )
}

/// Three variables, one band, every change far from its cap.
fn gentle() -> Sheet {
    with(
        head(2, (2, 6, 6), (-5, 5), [900, 900, 900]),
        [band(
            FIRST,
            (-1, 1),
            [
                row([-5, 1, 0], 3, 0, 0, 32),
                row([0, -5, -1], 2, 0, 4, 32),
                row([1, 0, -5], -1, 5, 0, 32),
            ],
        )],
        [sides([(500, 600), (500, 600), (500, 600)])],
        sides([(-90, 90), (-90, 90), (-90, 90)]),
    )
}

/// One variable with a strong push back: every change is cut by its cap.
fn stiff() -> Sheet {
    with(
        head(0, (5, 3, 6), (-10, 10), [3]),
        [
            band(FIRST, (10, 10), [row([0], 1_000, 100_000, 0, 1)]),
            band(-20, (0, 0), [row([-1], 4, 0, 0, 4)]),
            band(20, (-10, -10), [row([0], 1_000, -100_000, 50_000, 1)]),
        ],
        [sides([(-200, -90)]), sides([(90, 200)])],
        sides([(-25, 25)]),
    )
}

/// x is driven by z, whose bands begin at 7 and at 34. Each of x's rows is greatest or least at an
/// end of its band.
fn ramps() -> Sheet {
    with(
        head(1, (2, 2, 2), (-3, 3), [12, 5]),
        [
            band(
                FIRST,
                (0, 0),
                [row([0, 3], 0, 0, 0, 2), row([0, -1], 1, 0, 0, 2)],
            ),
            band(
                7,
                (-1, 1),
                [row([0, 1], 0, -27, 0, 4), row([0, -1], 1, 20, 0, 4)],
            ),
            band(
                34,
                (0, 0),
                [row([0, -2], 0, 82, 0, 2), row([0, 1], 1, -38, 0, 2)],
            ),
        ],
        [sides([(500, 600), (500, 600)])],
        sides([(-100, 100), (-100, 100)]),
    )
}

/// One variable that changes by (x - 20) / 5 between two edges, and not elsewhere.
fn between(edge: i32, next: i32) -> Sheet {
    let still = row([0], 0, 0, 0, 1);
    with(
        head(0, (1, 1, 1), (0, 0), [5]),
        [
            band(FIRST, (0, 0), [still]),
            band(edge, (0, 0), [row([1], 0, -20, 0, 5)]),
            band(next, (0, 0), [still]),
        ],
        [sides([(100, 200)])],
        sides([(0, 40)]),
    )
}

/// One variable and two bands, whose rows have neither command nor spread nor divisor.
fn tiny(rho: i32, cap: i32, lower: Row, edge: i32, upper: Row, recovery: (i64, i64)) -> Sheet {
    with(
        head(0, (1, 1, rho), (0, 0), [cap]),
        [band(FIRST, (0, 0), [lower]), band(edge, (0, 0), [upper])],
        [sides([(100, 200)])],
        sides([recovery]),
    )
}

/// a·x + c in a tick.
fn by(a: i32, c: i32) -> Row {
    row([a], 0, c, 0, 1)
}

/// A question about one command.
fn ask(allowance: u32, command: i32, measured: StateBox) -> Call {
    let span = CommandRange::one(command);
    Call::Decide(
        Mark::One,
        Question {
            allowance,
            span,
            measured,
        },
    )
}

fn examples() -> Vec<Example> {
    use Covers::*;
    let origin = sides([(0, 0), (0, 0)]);
    let wide = sides([(-100, 100), (-70, 75)]);
    let push = |allowance| ask(allowance, 20, origin);
    let a_tick = |start| Call::Reach {
        ticks: 1,
        width: 1,
        law: Law::Baseline,
        start,
    };
    let refused = |name, sheet, call, number| Example {
        name,
        sheet,
        call,
        covers: vec![Refused(number)],
    };
    vec![
        Example {
            name: "keep_first_width",
            sheet: sledge(wide),
            call: push(100),
            covers: vec![
                Keep,
                WidthInTurn(1),
                Variables(2),
                BandsMet(3),
                Spread,
                DeltaNotAlpha,
            ],
        },
        Example {
            name: "keep_second_width",
            sheet: sledge(sides([(-100, 100), (-70, 65)])),
            call: push(100),
            covers: vec![
                Keep,
                WidthInTurn(2),
                Clamped,
                Unclamped,
                NegativeCoefficient,
            ],
        },
        Example {
            name: "keep_third_width",
            sheet: sledge(sides([(-100, 100), (-50, 50)])),
            call: push(100),
            covers: vec![Keep, WidthInTurn(3), BandsMet(2)],
        },
        Example {
            name: "keep_width_1",
            sheet: sledge(sides([(-100, 100), (-30, 30)])),
            call: push(1_000_000),
            covers: vec![Keep, WidthInTurn(4), WidthOne],
        },
        Example {
            name: "keep_with_the_last_round",
            sheet: sledge(sides([(-100, 100), (-70, 65)])),
            call: push(19),
            covers: vec![Keep, KeepWithExactAllowance, WidthInTurn(2)],
        },
        Example {
            name: "finest_outside_recovery",
            sheet: sledge(sides([(-100, 100), (-25, 30)])),
            call: push(100),
            covers: vec![Finest, WidthOne, Variables(2)],
        },
        Example {
            name: "finest_at_an_unsafe_box",
            sheet: sledge_at((20, 21), sides([(-100, 100), (-70, 19)])),
            call: push(100),
            covers: vec![Finest, WidthOne, UnsafeMet],
        },
        Example {
            name: "spent_at_once",
            sheet: sledge(wide),
            call: push(0),
            covers: vec![Spent, WidthInTurn(1)],
        },
        Example {
            name: "spent_first_width",
            sheet: sledge(wide),
            call: push(7),
            covers: vec![Spent, WidthInTurn(1), BandsMet(3)],
        },
        Example {
            name: "spent_between_widths",
            sheet: sledge(sides([(-100, 100), (-70, 65)])),
            call: push(8),
            covers: vec![Spent, WidthInTurn(2), SpentBetweenWidths],
        },
        Example {
            name: "spent_second_width",
            sheet: sledge(sides([(-100, 100), (-70, 65)])),
            call: push(18),
            covers: vec![Spent, WidthInTurn(2)],
        },
        Example {
            name: "spent_third_width",
            sheet: sledge(sides([(-100, 100), (-50, 30)])),
            call: push(30),
            covers: vec![Spent, WidthInTurn(3)],
        },
        Example {
            name: "spent_width_1",
            sheet: sledge(sides([(-100, 100), (-30, 30)])),
            call: push(50),
            covers: vec![Spent, WidthInTurn(4), WidthOne],
        },
        Example {
            name: "two_halvings",
            sheet: slow_growth(),
            call: ask(100, 9, sides([(20, 20), (0, 0)])),
            covers: vec![Keep, Halvings(2), Variables(2), Clamped, Unclamped],
        },
        Example {
            name: "two_halvings_spent",
            sheet: slow_growth(),
            call: ask(17, -9, sides([(20, 22), (48, 52)])),
            covers: vec![Spent, Halvings(2), BandsMet(2)],
        },
        Example {
            name: "chain_keep",
            sheet: chain(),
            call: ask(60, 12, sides([(-5, 5), (0, 3), (-2, 2), (1, 6)])),
            covers: vec![Keep, Variables(4), BandsMet(2), Spread, NegativeCoefficient],
        },
        Example {
            name: "chain_over",
            sheet: chain(),
            call: ask(60, -30, sides([(-95, -95), (-58, -57), (-95, -94), (3, 6)])),
            covers: vec![Finest, Variables(4), WidthOne, UnsafeMet],
        },
        Example {
            name: "gentle_keep",
            sheet: gentle(),
            call: ask(200, 5, sides([(-4, 8), (60, 70), (-88, -70)])),
            covers: vec![Keep, Variables(3), Unclamped],
        },
        Example {
            name: "stiff_keep",
            sheet: stiff(),
            call: ask(200, 10, sides([(18, 19)])),
            covers: vec![Keep, Variables(1), BandsMet(2), Clamped, DeltaNotAlpha],
        },
        Example {
            name: "check_passes",
            sheet: stiff(),
            call: Call::Check,
            covers: vec![CheckPasses, WidthInTurn(1), BandsMet(2), Variables(1)],
        },
        Example {
            name: "check_passes_at_width_1",
            sheet: chain(),
            call: Call::Check,
            covers: vec![CheckPasses, WidthInTurn(3), WidthOne, Variables(4)],
        },
        Example {
            name: "check_fails",
            sheet: Sheet {
                recovery: sides([(-10, 10), (-1, 1)]),
                ..sledge(wide)
            },
            call: Call::Check,
            covers: vec![CheckFails, WidthOne, Variables(2)],
        },
        Example {
            name: "reach_under_command",
            sheet: sledge(wide),
            call: Call::Reach {
                ticks: 9,
                width: 4,
                law: Law::command(-7),
                start: sides([(36, 41), (-3, 5)]),
            },
            covers: vec![UnderCommand, ShorterLastStep, BandsMet(2), Spread],
        },
        Example {
            name: "reach_under_baseline",
            sheet: chain(),
            call: Call::Reach {
                ticks: 6,
                width: 3,
                law: Law::Baseline,
                start: sides([(-20, 20), (-9, 7), (0, 0), (2, 5)]),
            },
            covers: vec![UnderBaseline, Variables(4), BandsMet(2), Spread],
        },
        Example {
            name: "reach_with_two_halvings",
            sheet: slow_growth(),
            call: Call::Reach {
                ticks: 9,
                width: 8,
                law: Law::command(3),
                start: sides([(-20, 20), (46, 51)]),
            },
            covers: vec![UnderCommand, Halvings(2), BandsMet(2), ShorterLastStep],
        },
        Example {
            name: "reach_of_no_ticks",
            sheet: gentle(),
            call: Call::Reach {
                ticks: 0,
                width: 1_000,
                law: Law::command(5),
                start: sides([(-1, 2), (-3, 4), (-5, 6)]),
            },
            covers: vec![UnderCommand, NoTicks, Variables(3)],
        },
        Example {
            name: "reach_over_three_parts",
            sheet: ramps(),
            call: a_tick(sides([(50, 50), (0, 40)])),
            covers: vec![UnderBaseline, BandsMet(3), CutTwice, OtherBoxesBefore],
        },
        Example {
            name: "reach_over_parts_in_longer_steps",
            sheet: ramps(),
            call: Call::Reach {
                ticks: 5,
                width: 2,
                law: Law::command(-3),
                start: sides([(50, 50), (4, 40)]),
            },
            covers: vec![UnderCommand, BandsMet(3), CutTwice, OtherBoxesBefore],
        },
        Example {
            name: "reach_up_to_an_edge",
            sheet: ramps(),
            call: a_tick(sides([(50, 50), (20, 34)])),
            covers: vec![UnderBaseline, BandsMet(2), EndsAtEdge, OtherBoxesBefore],
        },
        Example {
            name: "reach_up_to_just_below_an_edge",
            sheet: ramps(),
            call: a_tick(sides([(50, 50), (20, 33)])),
            covers: vec![UnderBaseline, EndsBelowEdge],
        },
        // The neighborhoods go from 0 to 10 and from 30 to 40.
        Example {
            name: "reach_with_edges_at_its_depths",
            sheet: between(10, 31),
            call: a_tick(sides([(0, 40)])),
            covers: vec![UnderBaseline, CutTwice, EndsAtEdge, Variables(1)],
        },
        Example {
            name: "reach_with_edges_beyond_its_depths",
            sheet: between(11, 30),
            call: a_tick(sides([(0, 40)])),
            covers: vec![UnderBaseline, EndsBelowEdge, Variables(1)],
        },
        // Below 1 the change is 1 - x, from 1 on x; so it is at least 1.
        Example {
            name: "kept_by_parts",
            sheet: tiny(1, 3, by(-1, 1), 1, by(1, 0), (2, 4)),
            call: ask(10, 0, sides([(0, 1)])),
            covers: vec![Keep, HandedOverBefore, BandsMet(2), Variables(1)],
        },
        // After the first tick the box ends at 4, before paper 3 at 5. The upper face's second
        // neighborhood so begins at 0, in the first band, and not at 1.
        Example {
            name: "handed_over_by_parts",
            sheet: tiny(1, 2, by(2, 1), 1, by(-1, 0), (-4, 4)),
            call: ask(10, 0, sides([(0, 3)])),
            covers: vec![Finest, KeptBefore, BandsMet(2), Variables(1)],
        },
        Example {
            name: "check_passes_by_parts",
            sheet: tiny(1, 2, by(-2, 0), 1, by(0, 0), (0, 1)),
            call: Call::Check,
            covers: vec![CheckPasses, FailedBefore, BandsMet(2), Variables(1)],
        },
        Example {
            name: "check_fails_by_parts",
            sheet: tiny(2, 2, by(0, 1), 5, by(-2, 10), (0, 8)),
            call: Call::Check,
            covers: vec![CheckFails, PassedBefore, BandsMet(2), CutTwice],
        },
        refused(
            "refused_row",
            {
                let mut sheet = sledge(wide);
                sheet.bands[1].rows[1].q = 4_097;
                sheet
            },
            push(1),
            10,
        ),
        refused(
            "refused_recovery_side",
            sledge(sides([(-1_000_001, 100), (-70, 75)])),
            Call::Check,
            11,
        ),
        refused(
            "refused_measured_side",
            sledge(wide),
            ask(1, 0, sides([(0, 0), (1, 0)])),
            15,
        ),
        refused(
            "refused_reach",
            gentle(),
            Call::Reach {
                ticks: 1_001,
                width: 1,
                law: Law::command(6),
                start: origin,
            },
            16,
        ),
    ]
}

/// Four variables with cap 5 and divisor 7, so that q*cap is 35: x/7, (x ± 3)/7, (4 - x)/7, and the
/// command, of which the plain law has any.
fn sevenths() -> Sheet {
    with(
        head(0, (1, 1, 1), (-5, 5), [5, 5, 5, 5]),
        [band(
            FIRST,
            (-5, 5),
            [
                row([1, 0, 0, 0], 0, 0, 0, 7),
                row([0, 1, 0, 0], 0, 0, 3, 7),
                row([0, 0, -1, 0], 0, 4, 0, 7),
                row([0, 0, 0, 0], 7, 0, 0, 7),
            ],
        )],
        [sides([(500, 500), (500, 500), (500, 500), (500, 500)])],
        sides([(-100, 100), (-100, 100), (-100, 100), (-100, 100)]),
    )
}

/// A reach on that sheet: its name, the command or none for the plain law, the start box, and where
/// N - d and N + d lie.
type Seventh = (
    &'static str,
    Option<i32>,
    [(i64, i64); 4],
    &'static [At],
    &'static [At],
);

const SEVENTHS: &[Seventh] = &[
    (
        "reach_at_its_caps",
        None,
        [(-35, 35), (-32, 32), (29, 39), (0, 0)],
        &[At::MinusLimit],
        &[At::Limit],
    ),
    (
        "reach_just_within_its_caps",
        Some(1),
        [(-34, 34), (-31, 31), (38, 38), (0, 0)],
        &[At::AboveMinusLimit, At::Divisor],
        &[At::AboveMinusLimit, At::Divisor, At::BelowLimit],
    ),
    (
        "reach_beyond_its_caps",
        Some(5),
        [(34, 35), (38, 39), (-31, -31), (9, 9)],
        &[At::BelowLimit, At::Limit],
        &[At::Limit],
    ),
    (
        "reach_at_its_other_caps",
        Some(-5),
        [(-36, -35), (-38, -38), (38, 39), (9, 9)],
        &[At::MinusLimit],
        &[At::MinusLimit, At::AboveMinusLimit],
    ),
    (
        "reach_around_zero",
        Some(0),
        [(-1, 1), (3, 4), (4, 4), (9, 9)],
        &[At::MinusOne, At::Zero],
        &[At::Zero, At::One],
    ),
    (
        "reach_just_off_zero",
        Some(-1),
        [(1, 1), (-4, -4), (5, 5), (9, 9)],
        &[At::MinusDivisor, At::MinusOne, At::One],
        &[At::MinusDivisor, At::MinusOne, At::One],
    ),
];

/// Changes at their caps, next to them and around zero, over one band.
fn changes_at_places() -> Vec<Example> {
    let example = |&(name, command, start, below, above): &Seventh| {
        let (law, under) = match command {
            Some(command) => (Law::command(command), Covers::UnderCommand),
            None => (Law::Baseline, Covers::UnderBaseline),
        };
        Example {
            name,
            sheet: sevenths(),
            call: Call::Reach {
                ticks: 1,
                width: 1,
                law,
                start: sides(start),
            },
            covers: vec![
                under,
                Covers::Numerators(Face::Lower, below),
                Covers::Numerators(Face::Upper, above),
            ],
        }
    };
    SEVENTHS.iter().map(example).collect()
}

/// x0 is pushed by a number of each band of x1, all of them just within their caps: -34 of 35, 4 of
/// 5 and 20,479 of 20,480. x1 is still.
fn pushes() -> Sheet {
    let still = row([0, 0], 0, 0, 0, 1);
    let push = |edge, c, q| band(edge, (0, 0), [row([0, 0], 0, c, 0, q), still]);
    with(
        head(1, (1, 1, 1), (0, 0), [5, 5]),
        [push(FIRST, -34, 7), push(4, 4, 1), push(8, 20_479, 4_096)],
        [sides([(500, 600), (500, 600)])],
        sides([(-100, 100), (-100, 100)]),
    )
}

/// x1 grows by 1 in a tick, and x0 by about x1, with cap 5. Each band has another divisor.
fn passing() -> Sheet {
    let grow = row([0, 0], 0, 2, 0, 2);
    let follow = |edge, a, c, d, q| band(edge, (0, 0), [row([0, a], 0, c, d, q), grow]);
    with(
        head(1, (1, 1, 1), (0, 0), [5, 5]),
        [
            follow(FIRST, 7, -3, 4, 7),
            follow(-2, 3, 0, 0, 3),
            follow(3, 9, -5, 5, 9),
        ],
        [sides([(500, 600), (500, 600)])],
        sides([(-100, 100), (-100, 100)]),
    )
}

/// A reach over bands: its name, ticks and width, the start box, the bands met, and where N - d and
/// N + d lie.
type OverBands = (
    &'static str,
    (u32, u32),
    [(i64, i64); 2],
    usize,
    &'static [At],
    &'static [At],
);

const PUSHES: &[OverBands] = &[
    (
        "reach_within_caps_of_three_bands",
        (1, 1),
        [(50, 50), (0, 10)],
        3,
        &[At::AboveMinusLimit, At::Zero, At::BelowLimit],
        &[At::AboveMinusLimit, At::Zero, At::BelowLimit],
    ),
    (
        "reach_within_caps_of_two_bands",
        (1, 1),
        [(50, 50), (4, 10)],
        2,
        &[At::BelowLimit],
        &[At::BelowLimit],
    ),
];

const PASSING: OverBands = (
    "reach_from_cap_to_cap",
    (13, 2),
    [(0, 0), (-6, -5)],
    2,
    &[At::MinusLimit, At::Zero, At::BelowLimit],
    &[At::AboveMinusLimit, At::MinusDivisor, At::Zero, At::Limit],
);

/// The same over several bands.
fn changes_over_bands() -> Vec<Example> {
    let example =
        |sheet, &(name, (ticks, width), start, bands, below, above): &OverBands| Example {
            name,
            sheet,
            call: Call::Reach {
                ticks,
                width,
                law: Law::Baseline,
                start: sides(start),
            },
            covers: vec![
                Covers::BandsMet(bands),
                Covers::Numerators(Face::Lower, below),
                Covers::Numerators(Face::Upper, above),
            ],
        };
    let pushed = PUSHES.iter().map(|reach| example(pushes(), reach));
    pushed.chain([example(passing(), &PASSING)]).collect()
}

/// x/7 or the like, one variable, with cap 5.
fn one_row(row: Row, recovery: (i64, i64)) -> Sheet {
    with(
        head(0, (1, 1, 1), (0, 0), [5]),
        [band(FIRST, (0, 0), [row])],
        [sides([(100, 200)])],
        sides([recovery]),
    )
}

/// Decisions that such a change decides: 30 grows by 4 to 34 and by 4 to 38, 31 by 5 to 36 and by 5
/// to 41.
fn decisions_at_places() -> Vec<Example> {
    let asked = |name, recovery, answer| Example {
        name,
        sheet: one_row(row([1], 0, 0, 0, 7), recovery),
        call: ask(10, 0, sides([(30, 31)])),
        covers: vec![answer, Covers::Numerators(Face::Lower, &[At::BelowLimit])],
    };
    vec![
        asked("kept_just_within_the_caps", (38, 41), Covers::Keep),
        asked("handed_over_just_within_the_caps", (39, 41), Covers::Finest),
    ]
}

/// Recovery checks likewise: -x/7, which at a depth of 10 is 0, and the same with a spread of 1.
fn checks_at_places() -> Vec<Example> {
    let checked = |name, d, answer, below, above| Example {
        name,
        sheet: one_row(row([-1], 0, 0, d, 7), (-10, 10)),
        call: Call::Check,
        covers: vec![
            answer,
            Covers::Numerators(Face::Lower, below),
            Covers::Numerators(Face::Upper, above),
        ],
    };
    let (zero, below, above) = (&[At::Zero], &[At::MinusOne], &[At::One]);
    let (passes, fails) = (Covers::CheckPasses, Covers::CheckFails);
    vec![
        checked("check_passes_at_zero", 0, passes, zero, zero),
        checked("check_fails_just_off_zero", 1, fails, below, above),
    ]
}

/// A recovery box up to the no-go box's least speed: place 10 with speed 75 is in both.
fn recovery_on_a_box() -> Example {
    Example {
        name: "refused_recovery_box",
        sheet: sledge_at((75, 80), sides([(-100, 100), (-70, 75)])),
        call: Call::Check,
        covers: vec![Covers::Refused(22)],
    }
}

/// A question about a span.
fn ask_span(allowance: u32, ends: (i32, i32), measured: StateBox) -> Call {
    let span = CommandRange {
        least: ends.0,
        greatest: ends.1,
    };
    Call::Decide(
        Mark::Span,
        Question {
            allowance,
            span,
            measured,
        },
    )
}

/// One variable that the command pushes by b/4, another b from an edge on. The plain law leaves it.
fn pushed(b: i32, edge: i32, from_edge: i32, recovery: (i64, i64)) -> Sheet {
    let push = |edge, b| band(edge, (0, 0), [row([0], b, 0, 0, 4)]);
    with(
        head(0, (1, 1, 1), (-8, 8), [5]),
        [push(FIRST, b), push(edge, from_edge)],
        [sides([(100, 200)])],
        sides([recovery]),
    )
}

fn example(name: &'static str, sheet: Sheet, call: Call, covers: &[Covers]) -> Example {
    Example {
        name,
        sheet,
        call,
        covers: covers.to_vec(),
    }
}

/// The span -4..8 from 10..20: by b = -1 to 8..21.
fn spans_backward() -> Vec<Example> {
    use Covers::*;
    let asked = |name, recovery, covers| {
        let call = ask_span(10, (-4, 8), sides([(10, 20)]));
        example(name, pushed(-1, 50, -1, recovery), call, covers)
    };
    let other = OtherIfBounded;
    let kept = &[Keep, WiderSpan, CommandBackward];
    let below = &[Finest, other(Bounded::Inner), other(Bounded::Least)];
    let above = &[Finest, other(Bounded::Inner), other(Bounded::Greatest)];
    vec![
        asked("span_backward_kept", (8, 21), kept),
        asked("span_backward_below", (9, 21), below),
        asked("span_backward_above", (8, 20), above),
    ]
}

/// The same with b = 1 below 15: to 8..22.
fn spans_turning() -> Vec<Example> {
    use Covers::*;
    let asked = |name, recovery, covers| {
        let call = ask_span(10, (-4, 8), sides([(10, 20)]));
        example(name, pushed(1, 15, -1, recovery), call, covers)
    };
    let kept = &[Keep, WiderSpan, CommandForward, CommandBackward];
    let missed = &[Finest, WiderSpan, BandsMet(2)];
    vec![
        asked("span_turning_kept", (8, 22), kept),
        asked("span_turning_below", (9, 22), missed),
        asked("span_turning_above", (8, 21), missed),
    ]
}

/// x follows the command, and from 1 on z goes by -5 times the command. The command 1 leads z down, -1
/// leaves it; 1 and then -1 leads it to 5, into the no-go box.
fn steered() -> Sheet {
    let still = row([0, 0], 0, 0, 0, 1);
    let by = |b| row([0, 0], b, 0, 0, 1);
    with(
        head(0, (2, 1, 1), (-1, 1), [1, 5]),
        [
            band(FIRST, (0, 0), [by(1), still]),
            band(1, (0, 0), [by(1), by(-5)]),
        ],
        [sides([(-3, 3), (5, 9)])],
        sides([(-3, 3), (-20, 4)]),
    )
}

/// Each command of that span is kept, and the span is not.
fn spans_and_their_ends() -> Vec<Example> {
    use Covers::*;
    let origin = sides([(0, 0), (0, 0)]);
    let one = |name, command| example(name, steered(), ask(20, command, origin), &[Keep]);
    let all = |name, ends, covers| example(name, steered(), ask_span(20, ends, origin), covers);
    vec![
        one("steered_by_1", 1),
        one("steered_by_0", 0),
        one("steered_by_minus_1", -1),
        all("steered_by_a_half", (-1, 0), &[Keep, WiderSpan]),
        all("steered_by_all", (-1, 1), &[Finest, EndsKept, UnsafeMet]),
    ]
}

/// Spans on the machines of the other examples.
fn spans_of_machines() -> Vec<Example> {
    use Covers::*;
    let pushed = |name, allowance, ends, covers| {
        let call = ask_span(allowance, ends, sides([(0, 0), (0, 0)]));
        example(name, sledge(sides([(-100, 100), (-70, 65)])), call, covers)
    };
    let stiffly = |name, ends, covers| {
        let call = ask_span(200, ends, sides([(18, 19)]));
        example(name, stiff(), call, covers)
    };
    let gently = ask_span(200, (-5, 5), sides([(-4, 8), (60, 70), (-88, -70)]));
    let covers = &[Keep, WiderSpan, CommandForward, CommandBackward];
    vec![
        stiffly("stiff_span_of_one", (10, 10), &[Keep, SpanOfOne]),
        stiffly("refused_span", (10, 9), &[Refused(14)]),
        pushed("span_of_one_spent", 8, (20, 20), &[Spent, SpanOfOne]),
        pushed("span_second_width", 100, (12, 20), &[Keep, WidthInTurn(2)]),
        pushed("span_spent", 9, (12, 20), &[Spent, WidthInTurn(2)]),
        example("gentle_span", gentle(), gently, covers),
    ]
}

/// One variable that changes by the command, from 4..9. The coach leaves it; the plain law has these
/// bands.
fn drawn(bands: &[Band], recovery: (i64, i64)) -> (Sheet, Call) {
    let mut sheet = with(
        head(0, (1, 1, 1), (-9, 9), [9]),
        [],
        [sides([(100, 200)])],
        sides([recovery]),
    );
    sheet.band_count = bands.len() as i32;
    sheet.bands[..bands.len()].copy_from_slice(bands);
    (sheet, ask(10, 0, sides([(4, 9)])))
}

/// -x/2 within a safety range: from 4..9 to -1..7 where it does not clamp. In two bands from 7 on 4 - x:
/// over its part, 7..9, from -5 to -3, over 4..9 from -5 to 0.
fn drawn_by_laws() -> Vec<Example> {
    use Covers::*;
    let from = |edge, safety| band(edge, safety, [row([0], 1, 0, 0, 1)]);
    let half = |safety| led(from(FIRST, safety), [-1], 0, 2);
    let asked = |name, bands: &[Band], recovery, covers: &[Covers]| {
        let (sheet, call) = drawn(bands, recovery);
        example(name, sheet, call, covers)
    };
    let free = &[half((-9, 9))];
    let parts = &[half((-9, 9)), led(from(7, (-9, 9)), [-1], 4, 1)];
    let (unclamped, other) = (LawEnd(End::Least, Place::Between), OtherIfLaw);
    let clamped = LawEnd(End::Greatest, Place::Least);
    let middle = &[Finest, unclamped, other(Rule::LawInTheMiddle)];
    let least = &[Finest, Following, other(Rule::LawFromItsLeast)];
    let head = &[Finest, clamped, other(Rule::LawWithinTheHead)];
    let whole = &[Keep, BandsMet(2), other(Rule::LawOverWhole)];
    vec![
        asked("law_kept", free, (-1, 7), &[Keep, Following, unclamped]),
        asked("law_below_its_middle", free, (0, 7), middle),
        asked("law_above_its_least", free, (-1, 6), least),
        asked("law_clamped_to_its_band", &[half((1, 9))], (-1, 7), head),
        asked("law_over_its_parts", parts, (-1, 7), whole),
    ]
}

/// Two handles with place, speed and pull each, and three bands of the first pull. The plain law follows
/// the state.
fn column() -> Sheet {
    let rows = |own| {
        [
            row([-3, 1, 0, 0, 0, 0], 5, 0, 1, 16),
            row([1, -4, 0, 0, 0, 0], -3, 2, 0, 16),
            row([0, 0, own, 1, 0, 0], 1, 0, 2, 16),
            row([0, 0, 0, -3, 1, 0], 2, -1, 0, 16),
            row([0, 0, 0, 1, -4, 0], -6, 0, 1, 16),
            row([0, 1, 0, 0, 0, -4], 0, 0, 0, 16),
        ]
    };
    let low = band(FIRST, (-6, 6), rows(-3));
    let middle = band(-6, (-3, 4), rows(-4));
    let high = band(9, (-2, -1), rows(-5));
    with(
        head(2, (1, 1, 1), (-20, 20), [4; 6]),
        [
            led(low, [-2, 0, -1, 0, 0, 1], 5, 3),
            led(middle, [-1, 1, 0, -2, 0, 1], -4, 4),
            led(high, [0, -3, -1, 0, 2, 0], 1, 2),
        ],
        [sides([(100, 200); 6])],
        sides([(-30, 30); 6]),
    )
}

/// A reach of the column under the plain law, whose law has ends at these places.
fn column_reach(
    name: &'static str,
    (ticks, width): (u32, u32),
    start: [(i64, i64); 6],
    (bands, least, greatest): (usize, Place, Place),
    other: Rule,
) -> Example {
    use Covers::*;
    let call = Call::Reach {
        ticks,
        width,
        law: Law::Baseline,
        start: sides(start),
    };
    let ends = [LawEnd(End::Least, least), LawEnd(End::Greatest, greatest)];
    let covers = [
        Variables(6),
        BandsMet(bands),
        ends[0],
        ends[1],
        OtherIfLaw(other),
    ];
    example(name, column(), call, &covers)
}

/// Its boxes over one, two and three bands, and its answers.
fn columns() -> Vec<Example> {
    use Covers::*;
    use Place::{Between, Greatest, Least};
    let near = [(0, 2), (-1, 1), (0, 3), (-2, 0), (1, 2), (-3, -3)];
    let far = [(20, 30), (0, 3), (0, 4), (2, 3), (0, 0), (1, 2)];
    let over_two = [(-30, -20), (4, 9), (-9, -2), (0, 6), (-5, 5), (7, 8)];
    let over_three = [(-2, 2), (-3, 3), (-8, 10), (-1, 2), (0, 1), (-2, 2)];
    let middle = Rule::LawInTheMiddle;
    let (whole, head) = (Rule::LawOverWhole, Rule::LawWithinTheHead);
    let (free, low) = ((1, Between, Between), (1, Least, Least));
    let (high, both) = ((2, Greatest, Greatest), (3, Least, Greatest));
    let commanded = Call::Reach {
        ticks: 1,
        width: 1,
        law: Law::command(7),
        start: sides(over_three),
    };
    let asked = ask(10, 9, sides(near));
    vec![
        column_reach("column_with_free_laws", (1, 1), near, free, middle),
        column_reach("column_at_its_least", (1, 1), far, low, head),
        column_reach("column_at_its_greatest", (1, 1), over_two, high, head),
        column_reach("column_over_three_bands", (2, 2), over_three, both, whole),
        example(
            "column_commanded",
            column(),
            commanded,
            &[UnderCommand, Following],
        ),
        example("column_kept", column(), asked, &[Keep, Variables(6)]),
        example(
            "column_check",
            column(),
            Call::Check,
            &[CheckPasses, Variables(6)],
        ),
    ]
}

/// Five variables in a chain that the plain law draws to 0 and pushes away, in two bands of the last one.
fn pulley(recovery: (i64, i64)) -> Sheet {
    let rows = |push| {
        [
            row([-3, 1, 0, 0, 0], push, 0, 0, 16),
            row([1, -4, 1, 0, 0], 1, 2, 1, 16),
            row([0, 1, -4, 1, 0], -push, 0, 2, 16),
            row([0, 0, 1, -4, 1], 2, -1, 0, 16),
            row([0, 0, 0, 1, -3], -1, 0, 3, 16),
        ]
    };
    with(
        head(4, (1, 2, 2), (-15, 15), [4; 5]),
        [
            led(band(FIRST, (-9, 9), rows(3)), [-2, 0, 1, 0, 1], 0, 4),
            led(band(5, (-2, 7), rows(-2)), [1, -1, 0, 2, 0], 6, 5),
        ],
        [sides([
            (60, 90),
            (-90, 90),
            (-90, 90),
            (-90, 90),
            (-90, 90),
        ])],
        sides([recovery; 5]),
    )
}

/// Its answers.
fn pulleys() -> Vec<Example> {
    use Covers::*;
    let box_at = sides([(-2, 3), (0, 5), (-4, 0), (1, 2), (3, 7)]);
    let asked = |name, recovery, allowance, covers| {
        example(name, pulley(recovery), ask(allowance, 10, box_at), covers)
    };
    let wide = (-40, 40);
    let mut refused = pulley(wide);
    refused.bands[1].rows[4].q = 4_097;
    vec![
        asked("pulley_kept", wide, 100, &[Keep, Variables(5), BandsMet(2)]),
        asked("pulley_over", (-8, 8), 100, &[Finest, Variables(5)]),
        asked("pulley_spent", wide, 3, &[Spent, Variables(5)]),
        example(
            "pulley_span",
            pulley(wide),
            ask_span(100, (-9, 12), box_at),
            &[Keep, WiderSpan],
        ),
        example(
            "pulley_check_fails",
            pulley((-9, 9)),
            Call::Check,
            &[CheckFails],
        ),
        example("pulley_refused", refused, Call::Check, &[Refused(10)]),
    ]
}

fn point(value: f32, tolerance: f32) -> Reading {
    Reading::Point { value, tolerance }
}

fn pair(lower: f32, upper: f32) -> Reading {
    Reading::Pair { lower, upper }
}

/// The same call by readings, which come to its box.
fn told(call: Call, readings: &[Reading]) -> Call {
    match call {
        Call::Decide(mark, question) => Call::Readings(mark, question, readings.to_vec()),
        _ => panic!("only a decision is by readings"),
    }
}

/// One variable that is drawn to 0 by half of it, by a reading that comes to this box. From 4..9 it just
/// stays in the recovery box above 0, from -9..-4 in the one below.
fn by_reading(
    name: &'static str,
    reading: Reading,
    measured: (i64, i64),
    covers: &[Covers],
) -> Example {
    let pushed = band(FIRST, (-9, 9), [row([0], 1, 0, 0, 1)]);
    let recovery = if measured.0 > 0 { (-1, 7) } else { (-7, 1) };
    let (sheet, _) = drawn(&[led(pushed, [-1], 0, 2)], recovery);
    let call = ask(10, 0, sides([measured]));
    example(name, sheet, told(call, &[reading]), covers)
}

fn drawn_by_readings() -> Vec<Example> {
    use Covers::*;
    let zero = OtherIfRounded(Rounding::TowardZero);
    let tolerance = OtherIfRounded(Rounding::ToleranceTowardZero);
    let kept = &[Keep, ByPoint, BetweenWhole];
    let (paired, over) = (&[Keep, ByPair], &[Finest, zero]);
    let wider = &[Finest, Widened, tolerance];
    let (low, far) = ((-9, -4), (-10, -4));
    vec![
        by_reading("point_kept", point(6.5, 2.0), (4, 9), kept),
        by_reading("point_below_0_kept", point(-6.5, 2.0), low, kept),
        by_reading("point_over", point(6.5, 2.5), (3, 10), wider),
        by_reading("point_below_0_over", point(-7.0, 2.25), far, wider),
        by_reading("pair_kept", pair(4.25, 8.5), (4, 9), paired),
        by_reading("pair_over", pair(4.25, 9.5), (4, 10), over),
        by_reading("pair_below_0_kept", pair(-8.5, -4.0), low, paired),
        by_reading("pair_below_0_over", pair(-9.25, -4.0), far, over),
    ]
}

/// The machines of the other examples by readings of both kinds, which come to the same boxes.
fn machines_by_readings() -> Vec<Example> {
    use Covers::*;
    let zeros = [point(0.0, -0.0), pair(-0.0, 0.0)];
    let origin = sides([(0, 0), (0, 0)]);
    let pushed = |name, allowance, covers| {
        let call = told(ask(allowance, 20, origin), &zeros);
        example(name, sledge(sides([(-100, 100), (-70, 65)])), call, covers)
    };
    let chained = sides([(-5, 5), (0, 3), (-2, 2), (1, 6)]);
    let links = [
        point(0.0, 5.0),
        pair(0.25, 2.5),
        point(-0.0, 1.5),
        pair(1.0, 5.062_5),
    ];
    let gently = sides([(-4, 8), (60, 70), (-88, -70)]);
    let three = [point(2.0, 5.5), point(65.0, 4.25), pair(-87.5, -70.0)];
    let steer = told(ask_span(20, (-1, 1), origin), &zeros);
    let covers = &[Keep, Variables(4), ByPoint, ByPair, Widened, BetweenWhole];
    vec![
        pushed("readings_second_width", 100, &[Keep, WidthInTurn(2)]),
        pushed("readings_spent", 8, &[Spent, WidthInTurn(2)]),
        example(
            "chain_by_readings",
            chain(),
            told(ask(60, 12, chained), &links),
            covers,
        ),
        example(
            "gentle_span_by_readings",
            gentle(),
            told(ask_span(200, (-5, 5), gently), &three),
            &[Keep, Variables(3), Widened],
        ),
        example("steered_by_readings", steered(), steer, &[Finest]),
    ]
}

/// A machine of six variables.
fn columns_by_readings() -> Vec<Example> {
    use Covers::*;
    let near = sides([(0, 2), (-1, 1), (0, 3), (-2, 0), (1, 2), (-3, -3)]);
    let six = [
        point(1.0, 0.5),
        point(0.0, 1.0),
        pair(0.25, 2.5),
        pair(-1.5, -0.0),
        point(1.5, 0.0),
        point(-3.0, 0.0),
    ];
    let asked =
        |name, readings, covers| example(name, column(), told(ask(10, 9, near), readings), covers);
    let mut without = six;
    (without[4], without[5]) = (point(f32::NAN, 0.0), Reading::Missing);
    vec![
        asked("column_by_readings", &six, &[Keep, Variables(6), Following]),
        asked("column_without_a_reading", &six[..4], &[Refused(18)]),
        asked("column_by_no_number", &without, &[Refused(19)]),
    ]
}

/// One of five variables, under a span.
fn pulleys_by_readings() -> Vec<Example> {
    use Covers::*;
    let box_at = sides([(-2, 3), (0, 5), (-4, 0), (1, 2), (3, 7)]);
    let five = [
        pair(-1.5, 2.5),
        point(2.5, 2.0),
        point(-2.0, 1.5),
        pair(1.0, 1.5),
        point(5.0, 2.0),
    ];
    let asked = |name, readings: &[Reading], covers: &[Covers]| {
        let call = told(ask_span(100, (-9, 12), box_at), readings);
        example(name, pulley((-40, 40)), call, covers)
    };
    let refused = |name, i: usize, reading, number| {
        let mut readings = five;
        readings[i] = reading;
        asked(name, &readings, &[Refused(number)])
    };
    vec![
        asked(
            "pulley_by_readings",
            &five,
            &[Keep, Variables(5), WiderSpan],
        ),
        refused("pulley_too_far", 2, point(-1e6, 1.0), 15),
        refused("pulley_reversed", 3, pair(1.5, 1.25), 19),
        refused("pulley_without_a_reading", 0, Reading::Missing, 18),
    ]
}

fn hex(bytes: &[u8]) -> String {
    bytes.iter().fold(String::new(), |mut text, byte| {
        let _ = write!(text, "{byte:02x}");
        text
    })
}

fn pairs(sides: &StateBox, n: usize) -> Vec<u8> {
    let mut bytes = Vec::new();
    for i in 0..n {
        bytes.extend((sides.lower[i] as i32).to_be_bytes());
        bytes.extend((sides.upper[i] as i32).to_be_bytes());
    }
    bytes
}

fn ranges(sides: &StateBox, n: usize) -> String {
    let ranges: Vec<String> = (0..n)
        .map(|i| format!("{}..{}", sides.lower[i], sides.upper[i]))
        .collect();
    ranges.join(",")
}

/// The sheet with values that the writer takes in place of those that it may refuse: divisors, the
/// recovery box and the no-go boxes.
fn with_allowed(sheet: &Sheet) -> Sheet {
    let mut allowed = *sheet;
    let rows = allowed.bands.iter_mut().flat_map(|band| &mut band.rows);
    rows.for_each(|row| row.q = row.q.min(4_096));
    allowed.recovery = sides([(0, 0); VARIABLES]);
    for (number, unsafe_box) in (1..).zip(&mut allowed.unsafe_boxes) {
        *unsafe_box = sides([(number, number); VARIABLES]);
    }
    allowed
}

/// The sheet's bytes, also where the writer would refuse its values:
/// those are written as allowed ones and then put in their places.
fn sheet_bytes(sheet: &Sheet) -> Vec<u8> {
    let mut bytes = vec![0; sheet.length()];
    if sheet::write(sheet, &mut bytes, 0).is_ok() {
        return bytes;
    }
    let allowed = with_allowed(sheet);
    sheet::write(&allowed, &mut bytes, 0).expect("only these values are beyond their bounds");
    let n = sheet.n();
    let row_length = 2 * n + 12;
    let rows_at = 14 + sheet.kind().law_length(n);
    let band_length = rows_at + n * row_length;
    for (k, band) in sheet.bands().iter().enumerate() {
        for (i, row) in band.rows[..n].iter().enumerate() {
            let end = 20 + 2 * n + k * band_length + rows_at + (i + 1) * row_length;
            bytes[end - 2..end].copy_from_slice(&(row.q as u16).to_be_bytes());
        }
    }
    let record_length = 2 + 8 * n;
    let boxes = sheet.unsafe_boxes().iter().chain([&sheet.recovery]).rev();
    for (record, sides) in bytes.rchunks_mut(record_length).zip(boxes) {
        record[2..].copy_from_slice(&pairs(sides, n));
    }
    bytes
}

/// An example's answer and what was counted on the way.
struct Answer {
    code: u8,
    width: u32,
    rounds: u64,
    first_width: u32,
    counts: Counts,
    reach: Option<(StateBox, StateBox)>,
}

fn refused(refusal: sheet::Refusal) -> Answer {
    Answer {
        code: 3,
        width: u32::from(refusal.number()),
        rounds: 0,
        first_width: 0,
        counts: Counts::default(),
        reach: None,
    }
}

/// Kinds and floats of readings, as a call has them.
fn slices(readings: &[Reading]) -> (Vec<u8>, Vec<f32>) {
    let slice = |reading: &Reading| match *reading {
        Reading::Point { value, tolerance } => (1, [value, tolerance]),
        Reading::Pair { lower, upper } => (2, [lower, upper]),
        Reading::Missing => (0, [0.0, 0.0]),
    };
    let (kinds, values): (Vec<u8>, Vec<[f32; 2]>) = readings.iter().map(slice).unzip();
    (kinds, values.concat())
}

/// The bytes before a question's pairs.
fn head_bytes(mark: Mark, question: &Question) -> Vec<u8> {
    question_bytes(mark, question, 0)
}

fn question_bytes(mark: Mark, question: &Question, n: usize) -> Vec<u8> {
    let (letters, ends) = match mark {
        Mark::One => (b"QS", vec![question.span.least]),
        Mark::Span => (b"QR", vec![question.span.least, question.span.greatest]),
    };
    let mut bytes = letters.to_vec();
    bytes.extend(question.allowance.to_be_bytes());
    bytes.extend(ends.into_iter().flat_map(i32::to_be_bytes));
    bytes.extend(pairs(&question.measured, n));
    bytes
}

/// Code, width and rounds of a decision on a question that was read.
fn decided(decision: Decision) -> (u8, u32, u64) {
    match decision {
        Decision::Keep { width, rounds } => (0, width, rounds),
        Decision::Finest { width, rounds } => (1, width, rounds),
        Decision::Spent { width, rounds } => (2, width, rounds),
        Decision::Refused(_) => unreachable!("sheet and question were read"),
    }
}

/// The same of the recovery check of a sheet that was read.
fn checked(check: RecoveryCheck) -> (u8, u32, u64) {
    match check {
        RecoveryCheck::Pass { width, rounds } => (0, width, rounds),
        RecoveryCheck::Fail { width, rounds } => (1, width, rounds),
        RecoveryCheck::Refused(_) => unreachable!("the sheet was read"),
    }
}

/// Guards that bound a law by another rule.
macro_rules! guards_by_rules {
    ($($rule:ident),*) => {
        $(
            struct $rule;

            impl Watch for $rule {
                const RULE: Rule = Rule::$rule;
            }
        )*

        /// The code by another rule, as below.
        fn code_by_rule(rule: Rule, example: &Example, answer: &Answer) -> u8 {
            match rule {
                $(Rule::$rule => code_by(&mut $rule, example, answer),)*
                _ => panic!("no wrong rule for a law"),
            }
        }
    };
}

guards_by_rules!(
    LawOverWhole,
    LawInTheMiddle,
    LawFromItsLeast,
    LawWithinTheHead
);

/// The code of a guard: of a reach 0 where it has the same end box.
fn code_by<W: Watch>(watch: &mut W, example: &Example, answer: &Answer) -> u8 {
    let sheet = &example.sheet;
    match example.call {
        Call::Decide(_, question) | Call::Readings(_, question, _) => {
            decided(decide_watched(sheet, &question, Faults::default(), watch)).0
        }
        Call::Check => checked(check_recovery_watched(sheet, watch)).0,
        Call::Reach {
            ticks,
            width,
            law,
            start,
        } => {
            let mut budget = Budget::unlimited();
            let end = advance(sheet, law, &start, ticks, width, &mut budget, watch);
            let same = answer.reach.is_some_and(|reach| end == Ok(reach.0));
            u8::from(!same)
        }
    }
}

/// The answer to a question that was read; the bytes have the same.
fn decision_answer(sheet: &Sheet, question: &Question, by_bytes: Decision) -> Answer {
    let mut counts = Counts::default();
    let decision = decide_watched(sheet, question, Faults::default(), &mut counts);
    assert_eq!(decision, by_bytes);
    let (code, width, rounds) = decided(decision);
    Answer {
        code,
        width,
        rounds,
        first_width: sheet.delta.max(sheet.alpha) as u32,
        counts,
        reach: None,
    }
}

/// The answer by readings; they come to the question, unless they are refused.
fn readings_answer(bytes: &[u8], sheet: &Sheet, call: &Call) -> Answer {
    let Call::Readings(mark, question, readings) = call else {
        panic!("a decision by readings");
    };
    let head = head_bytes(*mark, question);
    match read_readings(sheet, &head, readings) {
        Ok(read) => {
            assert_eq!(read, *question);
            let (kinds, values) = slices(readings);
            decision_answer(sheet, &read, decide_slices(bytes, &head, &kinds, &values))
        }
        Err(refusal) => refused(refusal),
    }
}

fn answer(bytes: &[u8], call: &Call, n: usize) -> Answer {
    let mut counts = Counts::default();
    let sheet = match sheet::read(bytes) {
        Ok(sheet) => sheet,
        Err(refusal) => return refused(refusal),
    };
    match call {
        Call::Decide(mark, question) => {
            let question_bytes = question_bytes(*mark, question, n);
            let question = match read_question(&sheet, &question_bytes) {
                Ok(question) => question,
                Err(refusal) => return refused(refusal),
            };
            decision_answer(&sheet, &question, decide(bytes, &question_bytes))
        }
        Call::Readings(..) => readings_answer(bytes, &sheet, call),
        Call::Check => {
            let (code, width, rounds) = checked(check_recovery_watched(&sheet, &mut counts));
            Answer {
                code,
                width,
                rounds,
                first_width: sheet.rho as u32,
                counts,
                reach: None,
            }
        }
        Call::Reach {
            ticks,
            width,
            law,
            start,
        } => {
            let reached = match reach(&sheet, *ticks, *width, *law, start) {
                Ok(reached) => reached,
                Err(refusal) => return refused(refusal),
            };
            let mut budget = Budget::unlimited();
            let end = advance(
                &sheet,
                *law,
                start,
                *ticks,
                *width,
                &mut budget,
                &mut counts,
            );
            assert_eq!(end, Ok(reached.end));
            Answer {
                code: 0,
                width: *width,
                rounds: reached.rounds,
                first_width: *width,
                counts,
                reach: Some((reached.end, reached.swept)),
            }
        }
    }
}

/// The question of an example that asks by a span, and the sheet's bytes.
fn spans(example: &Example) -> Option<(&Question, Vec<u8>)> {
    match &example.call {
        Call::Decide(Mark::Span, question) | Call::Readings(Mark::Span, question, _) => {
            Some((question, sheet_bytes(&example.sheet)))
        }
        _ => None,
    }
}

/// Whether one of the example's readings is like this.
fn any_reading(example: &Example, test: impl Fn(&Reading) -> bool) -> bool {
    match &example.call {
        Call::Readings(_, _, readings) => readings.iter().any(test),
        _ => false,
    }
}

/// The code of a guard that rounds the example's readings otherwise.
fn rounded_by(example: &Example, rounding: Rounding) -> Option<u8> {
    let Call::Readings(_, question, readings) = &example.call else {
        return None;
    };
    let mut other = *question;
    for (i, &reading) in readings.iter().enumerate() {
        (other.measured.lower[i], other.measured.upper[i]) = rounding.sides(reading);
    }
    let mut counts = Counts::default();
    let decision = decide_watched(&example.sheet, &other, Faults::default(), &mut counts);
    Some(decided(decision).0)
}

/// The code of a guard that bounds only so much of a span.
fn decided_by(example: &Example, bounded: Bounded) -> Option<u8> {
    let faults = Faults {
        bounded,
        ..Faults::default()
    };
    let (question, _) = spans(example)?;
    let decision = decide_watched(&example.sheet, question, faults, &mut Counts::default());
    Some(decided(decision).0)
}

/// Whether the example really shows it.
fn shows(covers: Covers, example: &Example, answer: &Answer) -> bool {
    let sheet = &example.sheet;
    let n = sheet.n();
    let counts = &answer.counts;
    let any_row = |test: fn(&Row) -> bool| {
        sheet
            .bands()
            .iter()
            .any(|band| band.rows[..n].iter().any(test))
    };
    let decides = matches!(example.call, Call::Decide(..) | Call::Readings(..));
    let checks = matches!(example.call, Call::Check);
    let decided = |code| decides && answer.code == code;
    let checked = |code| checks && answer.code == code;
    let before = || code_by(&mut WholeNeighborhoods, example, answer);
    let allowance = match example.call {
        Call::Decide(_, question) | Call::Readings(_, question, _) => u64::from(question.allowance),
        _ => u64::MAX,
    };
    match covers {
        Covers::Variables(n) => sheet.variables == n,
        Covers::BandsMet(bands) => counts.bands_met[bands],
        Covers::CutTwice => counts.cut_twice,
        Covers::EndsAtEdge => counts.ends_at_edge,
        Covers::EndsBelowEdge => counts.ends_below_edge,
        Covers::OtherBoxesBefore => answer.reach.is_some() && before() != 0,
        Covers::HandedOverBefore => decides && before() != 0,
        Covers::KeptBefore => decides && before() == 0,
        Covers::FailedBefore => checks && before() != 0,
        Covers::PassedBefore => checks && before() == 0,
        Covers::Spread => answer.rounds > 0 && any_row(|row| row.d > 0),
        Covers::NegativeCoefficient => {
            answer.rounds > 0 && any_row(|row| row.a.iter().any(|&a| a < 0))
        }
        Covers::Clamped => counts.clamped > 0,
        Covers::Unclamped => counts.unclamped > 0,
        Covers::Numerators(face, places) => counts.all_at(face, places),
        Covers::Halvings(times) => counts.most_halvings == times,
        Covers::Keep => decided(0),
        Covers::Finest => decided(1),
        Covers::Spent => decided(2) && answer.rounds == allowance,
        Covers::WidthInTurn(turn) => answer.width == answer.first_width >> (turn - 1),
        Covers::WidthOne => answer.width == 1,
        Covers::SpentBetweenWidths => {
            // All ticks of the attempts before, and none of the last.
            let ticks: u32 = counts.steps.iter().map(|step| step.ticks).sum();
            let before = (answer.first_width / answer.width).ilog2();
            let settled: u64 = counts.steps.iter().map(|s| u64::from(s.rounds)).sum();
            let attempt = (sheet.delta + sheet.alpha) as u32;
            decided(2) && before > 0 && ticks == before * attempt && settled == answer.rounds
        }
        Covers::KeepWithExactAllowance => decided(0) && answer.rounds == allowance,
        Covers::UnsafeMet => counts
            .steps
            .iter()
            .any(|step| sheet.unsafe_boxes().iter().any(|u| u.meets(&step.swept))),
        Covers::DeltaNotAlpha => decides && sheet.delta != sheet.alpha,
        Covers::CheckPasses => checked(0),
        Covers::CheckFails => checked(1),
        Covers::UnderCommand => matches!(
            example.call,
            Call::Reach {
                law: Law::Span { .. },
                ..
            }
        ),
        Covers::UnderBaseline => matches!(
            example.call,
            Call::Reach {
                law: Law::Baseline,
                ..
            }
        ),
        Covers::SpanOfOne => spans(example).is_some_and(|(asked, sheet)| {
            let one = question_bytes(Mark::One, asked, n);
            let two = question_bytes(Mark::Span, asked, n);
            asked.span.least == asked.span.greatest && decide(&sheet, &one) == decide(&sheet, &two)
        }),
        Covers::WiderSpan => {
            spans(example).is_some_and(|(asked, _)| asked.span.least < asked.span.greatest)
        }
        Covers::EndsKept => {
            let kept = |bounded| decided_by(example, bounded) == Some(0);
            kept(Bounded::Least) && kept(Bounded::Greatest)
        }
        Covers::CommandForward => any_row(|row| row.b > 0),
        Covers::CommandBackward => any_row(|row| row.b < 0),
        Covers::OtherIfBounded(bounded) => {
            decided_by(example, bounded).is_some_and(|code| code != answer.code)
        }
        Covers::Following => sheet.kind() == Kind::Following,
        Covers::LawEnd(end, place) => counts.law_ends.contains(&(end, place)),
        Covers::OtherIfLaw(rule) => code_by_rule(rule, example, answer) != answer.code,
        Covers::ByPoint => any_reading(example, |reading| matches!(reading, Reading::Point { .. })),
        Covers::ByPair => any_reading(example, |reading| matches!(reading, Reading::Pair { .. })),
        Covers::BetweenWhole => any_reading(example, |reading| match reading {
            Reading::Point { value, .. } => value.fract() != 0.0,
            Reading::Pair { lower, upper } => lower.fract() != 0.0 || upper.fract() != 0.0,
            Reading::Missing => false,
        }),
        Covers::Widened => any_reading(
            example,
            |reading| matches!(reading, Reading::Point { tolerance, .. } if tolerance.fract() != 0.0),
        ),
        Covers::OtherIfRounded(rounding) => {
            rounded_by(example, rounding).is_some_and(|code| code != answer.code)
        }
        Covers::NoTicks => matches!(example.call, Call::Reach { ticks: 0, .. }),
        Covers::ShorterLastStep => counts.steps.last().is_some_and(|s| s.ticks < answer.width),
        Covers::Refused(number) => answer.code == 3 && answer.width == u32::from(number),
    }
}

/// Readings as a line writes them, and the box that they come to unless it is refused.
fn readings_text(readings: &[Reading], answer: &Answer, question: &Question, n: usize) -> String {
    let (kinds, values) = slices(readings);
    let bits: Vec<u8> = values
        .iter()
        .flat_map(|x| x.to_bits().to_be_bytes())
        .collect();
    let measured = match answer.code {
        3 => String::new(),
        _ => format!(" box={}", ranges(&question.measured, n)),
    };
    format!("kinds={} values={}{measured}", hex(&kinds), hex(&bits))
}

/// The example's line.
fn line(example: &Example, bytes: &[u8], answer: &Answer) -> String {
    let n = example.sheet.n();
    let mut line = format!("{} ", example.name);
    let _ = match &example.call {
        Call::Decide(mark, question) => write!(
            line,
            "decide sheet={} question={}",
            hex(bytes),
            hex(&question_bytes(*mark, question, n))
        ),
        Call::Readings(mark, question, readings) => write!(
            line,
            "readings sheet={} head={} {}",
            hex(bytes),
            hex(&head_bytes(*mark, question)),
            readings_text(readings, answer, question, n)
        ),
        Call::Check => write!(line, "check sheet={}", hex(bytes)),
        Call::Reach {
            ticks,
            width,
            law,
            start,
        } => {
            let (law, command) = match law {
                Law::Baseline => (0, 0),
                Law::Span { least, .. } => (1, *least),
            };
            write!(
                line,
                "reach sheet={} ticks={ticks} width={width} law={law} command={command} start={}",
                hex(bytes),
                hex(&pairs(start, n))
            )
        }
    };
    let _ = match answer {
        Answer {
            reach: Some((end, swept)),
            rounds,
            ..
        } => write!(
            line,
            " end={} swept={} rounds={rounds}",
            ranges(end, n),
            ranges(swept, n)
        ),
        Answer { code: 3, width, .. } => write!(line, " refused={width}"),
        Answer {
            code,
            width,
            rounds,
            ..
        } => write!(line, " code={code} width={width} rounds={rounds}"),
    };
    line
}

/// Prints an example; the program stops where it does not show what it names.
fn print(example: &Example) {
    let bytes = sheet_bytes(&example.sheet);
    let answer = answer(&bytes, &example.call, example.sheet.n());
    assert!(
        answer.rounds <= ROUNDS,
        "{} takes {} rounds",
        example.name,
        answer.rounds
    );
    for &covers in &example.covers {
        assert!(
            shows(covers, example, &answer),
            "{} does not show: {}",
            example.name,
            covers.text()
        );
    }
    let texts: Vec<String> = example.covers.iter().map(|covers| covers.text()).collect();
    println!();
    println!("# {}", texts.join("; "));
    println!("{}", line(example, &bytes, &answer));
}

/// Stops where all examples together leave something out.
fn require(covered: &[Covers]) {
    for covers in REQUIRED {
        assert!(
            covered.contains(covers),
            "no example shows {}",
            covers.text()
        );
    }
    for face in [Face::Lower, Face::Upper] {
        for at in ALL_AT {
            let shown = covered.iter().any(
                |c| matches!(c, Covers::Numerators(f, places) if *f == face && places.contains(&at)),
            );
            assert!(shown, "no example shows {}", numerators_text(face, &[at]));
        }
    }
}

fn main() {
    println!("# Worked examples, as printed by the program `print_examples`. A line has a name, the call,");
    println!("# its bytes in hex, and the answer. Law 0 is the plain law, law 1 the command. A reading is a");
    println!("# byte for its kind and the bits of two floats; the box that readings come to stands before the answer.");
    println!("# Codes: 0 keep or pass, 1 finest or fail, 2 spent.");
    let all = [
        examples(),
        changes_at_places(),
        changes_over_bands(),
        decisions_at_places(),
        checks_at_places(),
        vec![recovery_on_a_box()],
        spans_backward(),
        spans_turning(),
        spans_and_their_ends(),
        spans_of_machines(),
        drawn_by_laws(),
        columns(),
        pulleys(),
        drawn_by_readings(),
        machines_by_readings(),
        columns_by_readings(),
        pulleys_by_readings(),
    ];
    let mut covered = Vec::new();
    for example in all.iter().flatten() {
        print(example);
        covered.extend(&example.covers);
    }
    require(&covered);
}
