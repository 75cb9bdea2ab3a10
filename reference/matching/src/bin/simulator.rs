//! Runs the machine itself, kept and handed over as the archive answers, with random allowed
//! changes and the worst ones; fails on a forbidden state or a missed return. The coach asks by one
//! command or by a span, and then varies its command at every tick. The plain law takes any command of
//! the safety range, or where it follows the state any one between its ends at the true state. Behind the
//! runs in which the drive reports a box come runs in which it reports readings that allow the true state,
//! sometimes with none or a NaN among them. With `--fault` a faulty guard stands in the archive's place, or
//! a faulty drive runs the motor or reports, and has to be found out; `--self-test` tries all.

use matching::archive::{self, Answer};
use matching::expected::decide_before;
use matching::generate::{
    bytes_of, everywhere, question_bytes, set_in_order, sheet_bytes, span_bytes,
};
use matching::laws::{OtherGuard, OTHER_GUARDS};
use matching::random::Random;
use matching::readings::{allows, head_bytes, readings_allowing, Report, Rounding};
use matching::scenes::{drawn, Drawn};
use matching::tally::{hex, KindId, Tally};
use second_guard::boxes::{State, StateBox, VARIABLES};
use second_guard::decision::{
    check_recovery_watched, decide_watched, pack_refusal, read_question, trace_recovery, Bounded,
    Faults, Question, RecoveryCheck,
};
use second_guard::machine::{allowed_change, band_of, plain_commands};
use second_guard::reach::NoWatch;
use second_guard::readings::{measured_box, read_readings, readings_of, Reading};
use second_guard::rules::Rule;
use second_guard::sheet::{CommandRange, Kind, Refusal, Sheet};
use std::time::{Duration, Instant};

/// A run without fault takes so many ticks in all.
const TICKS: u64 = 12_000_000;
/// The same where the drive reports readings: a part of those.
const READING_PART: u64 = 4;
/// Periods on one sheet, and where a fault is to be found.
const PERIODS: usize = 1_000;
const FAULTY_PERIODS: usize = 100;
/// A fault has to be found within this time.
const PATIENCE: Duration = Duration::from_secs(60);

/// What the guard is asked by.
enum Asked {
    Question(Vec<u8>),
    /// The bytes before a question's pairs, and the drive's readings.
    Readings(Vec<u8>, Report),
}

impl Asked {
    fn readings(&self, n: usize) -> Vec<Reading> {
        match self {
            Asked::Question(_) => Vec::new(),
            Asked::Readings(_, Report { kinds, values }) => readings_of(n, kinds, values),
        }
    }

    /// The question as the second guard reads it.
    fn read(&self, sheet: &Sheet) -> Result<Question, Refusal> {
        match self {
            Asked::Question(question) => read_question(sheet, question),
            Asked::Readings(head, _) => read_readings(sheet, head, &self.readings(sheet.n())),
        }
    }

    /// The box of the question that was read holds the state, and all readings allow it.
    fn is_about(&self, read: &Question, sheet: &Sheet, state: &State) -> bool {
        let readings = self.readings(sheet.n());
        let mut of_variables = readings.iter().zip(state);
        let allowed = |(&reading, &x): (&Reading, &i64)| allows(reading, x);
        read.measured.holds(state) && of_variables.all(allowed)
    }

    fn by_archive(&self, sheet: &[u8]) -> Answer {
        match self {
            Asked::Question(question) => archive::decide(sheet, question),
            Asked::Readings(head, Report { kinds, values }) => {
                archive::decide_readings(sheet, head, kinds, values)
            }
        }
    }
}

/// Who answers the questions.
#[derive(Clone, Copy)]
enum Guard {
    Archive,
    Faulty(Faults),
    /// One that bounds a law by another rule.
    Other(OtherGuard),
    /// One that rounds readings by another rule.
    Rounding(Rounding),
    AlwaysKeeps,
}

impl Guard {
    /// The code of the answer, and its width or the refusal.
    fn answer(self, sheet: &Sheet, bytes: &[u8], asked: &Asked) -> (u64, u32) {
        let answer = match self {
            Guard::Archive => asked.by_archive(bytes),
            _ => Answer(match asked.read(sheet) {
                Ok(question) => self.decide(sheet, question, asked),
                Err(refusal) => pack_refusal(refusal),
            }),
        };
        (answer.code(), answer.width())
    }

    /// The answer of another guard than the archive to a question that is not refused.
    fn decide(self, sheet: &Sheet, mut question: Question, asked: &Asked) -> u64 {
        let faults = match self {
            Guard::Faulty(faults) => faults,
            Guard::Other(guard) => return (guard.decide)(sheet, &question).pack(),
            Guard::AlwaysKeeps => return 1 << 32,
            Guard::Rounding(rule) => {
                question.measured = rule.measured(&asked.readings(sheet.n()));
                Faults::default()
            }
            Guard::Archive => Faults::default(),
        };
        decide_watched(sheet, &question, faults, &mut NoWatch).pack()
    }

    /// The width at which the sheet passes its recovery check.
    fn passes(self, sheet: &Sheet) -> Option<u32> {
        let check = match self {
            Guard::Archive => {
                let answer = archive::recovery(&sheet_bytes(sheet));
                return (answer.code() == 0).then_some(answer.width());
            }
            Guard::Other(guard) => (guard.check)(sheet),
            _ => check_recovery_watched(sheet, &mut NoWatch),
        };
        match check {
            RecoveryCheck::Pass { width, .. } => Some(width),
            _ => None,
        }
    }

    /// The kinds of sheets that it is tried on.
    fn kinds(self) -> &'static [Kind] {
        match self {
            Guard::Other(_) => &[Kind::Following],
            _ => &[Kind::Fixed, Kind::Following],
        }
    }
}

/// How the drive uses a kept span and the plain law.
#[derive(Clone, Copy, PartialEq, Eq)]
enum Drive {
    /// Any command of the span, or of the plain law, at each tick.
    Obeys,
    /// Any command of the head, where the span has several.
    LeavesSpan,
    /// Any command of the safety range, where the plain law follows the state.
    LeavesLaw,
}

/// How the drive reports the state.
#[derive(Clone, Copy, PartialEq, Eq)]
enum Reports {
    /// As a box in the question's bytes.
    Box,
    /// As readings that allow it.
    Readings,
    /// As readings that allow the state of the period before.
    Late,
}

impl Reports {
    /// What the names of the kinds begin with, and which part of the least numbers has to be seen.
    fn kinds(self) -> (&'static str, u64) {
        match self {
            Reports::Box => ("", 1),
            _ => ("readings: ", READING_PART),
        }
    }
}

/// What the drive reports in a period.
enum Reported {
    Box(StateBox),
    Readings(Report),
}

/// Names the kinds of a trial.
struct Names<'a> {
    tally: &'a mut Tally,
    reports: Reports,
}

impl Names<'_> {
    fn kind(&mut self, name: impl AsRef<str>, least: u64) -> KindId {
        let (of, part) = self.reports.kinds();
        let name = format!("{of}{}", name.as_ref());
        self.tally.kind(name, least / part)
    }
}

struct Kinds {
    ticks: KindId,
    forbidden: KindId,
    returns: KindId,
    sheets: KindId,
    keeps: KindId,
    keeps_refined: KindId,
    keeps_outside: KindId,
    keeps_won: KindId,
    finest: KindId,
    spent: KindId,
    refused: KindId,
    no_question: KindId,
    near_edge: KindId,
    crossings: KindId,
    beside: KindId,
    outside: KindId,
    spans_kept: KindId,
    spans_refined: KindId,
    spans_finest: KindId,
    span_ticks: KindId,
    varied: KindId,
    /// A tick under a span at its least command, at its greatest, and between.
    at: [KindId; 3],
    law: LawKinds,
    /// Sheets that pass, by the number of variables.
    variables: [KindId; VARIABLES],
    readings: Option<ReadingKinds>,
}

/// What is seen of the drive's readings.
struct ReadingKinds {
    allowed: KindId,
    held: KindId,
    points: KindId,
    pairs: KindId,
    /// A value or side, and a tolerance, that is not whole; and such a one that is no eighth.
    moved: KindId,
    tolerances: KindId,
    noise: KindId,
    /// Periods refused by 18 and by 19.
    missing: KindId,
    not_a_number: KindId,
    /// Periods whose readings are not all whole, by the answer.
    kept: KindId,
    finest: KindId,
}

impl ReadingKinds {
    fn new(names: &mut Names) -> ReadingKinds {
        ReadingKinds {
            allowed: names.kind("numbers that allow the true state", 2_000_000),
            held: names.kind("boxes that hold the true state", 800_000),
            points: names.kind("points", 1_200_000),
            pairs: names.kind("pairs", 800_000),
            moved: names.kind("a value or side that rounding moves", 1_600_000),
            tolerances: names.kind("a tolerance that rounding moves", 1_200_000),
            noise: names.kind("a value or side that is no eighth", 800_000),
            missing: names.kind("periods refused for a missing one", 20_000),
            not_a_number: names.kind("periods refused for a NaN or an infinity", 20_000),
            kept: names.kind("periods kept, not all are whole", 400_000),
            finest: names.kind("periods handed over: finest, not all are whole", 80_000),
        }
    }
}

/// What is seen on sheets whose plain law follows the state.
struct LawKinds {
    sheets: KindId,
    keeps: KindId,
    finest: KindId,
    returns: KindId,
    ticks: KindId,
    behind_keep: KindId,
    /// The law's commands are an end of the safety range, or lie within it.
    at_least: KindId,
    at_greatest: KindId,
    within: KindId,
    /// Of two commands the least one or the greatest one was taken.
    rounded_down: KindId,
    rounded_up: KindId,
}

impl LawKinds {
    fn new(names: &mut Names) -> LawKinds {
        let mut kind = |name: &str, least: u64| names.kind(format!("by a law: {name}"), least);
        LawKinds {
            sheets: kind("sheets that pass", 50),
            keeps: kind("periods kept", 20_000),
            finest: kind("periods handed over: finest", 10_000),
            returns: kind("returns", 10_000),
            ticks: kind("plain ticks", 500_000),
            behind_keep: kind("plain ticks behind a keep", 200_000),
            at_least: kind("plain ticks at the least command of the range", 10_000),
            at_greatest: kind("plain ticks at the greatest command of the range", 10_000),
            within: kind("plain ticks within the range", 100_000),
            rounded_down: kind("plain ticks, the law rounded down", 50_000),
            rounded_up: kind("plain ticks, the law rounded up", 50_000),
        }
    }
}

impl Kinds {
    fn new(names: &mut Names) -> Kinds {
        Kinds {
            forbidden: names.kind("ticks without a forbidden state", 2_000_000),
            returns: names.kind("returns after alpha plain ticks behind a keep", 20_000),
            ticks: names.kind("ticks", 2_000_000),
            sheets: names.kind("sheets that pass", 100),
            keeps: names.kind("periods kept", 50_000),
            keeps_refined: names.kind("periods kept below the first width", 5_000),
            keeps_outside: names.kind("periods kept from outside the recovery box", 5_000),
            keeps_won: names.kind("every eighth one kept: handed over before paper 3", 200),
            finest: names.kind("periods handed over: finest", 20_000),
            spent: names.kind("periods handed over: spent", 1_000),
            refused: names.kind("periods handed over: refused", 1_000),
            no_question: names.kind("periods without a question", 20_000),
            near_edge: names.kind("ticks within a cap of a band edge", 100_000),
            crossings: names.kind("ticks from one band into another", 10_000),
            beside: names.kind("ticks beside a forbidden box", 50_000),
            outside: names.kind("ticks outside the recovery box", 100_000),
            spans_kept: names.kind("periods kept: by a span", 50_000),
            spans_refined: names.kind("periods kept: by a span, below the first width", 5_000),
            spans_finest: names.kind("periods handed over: by a span, finest", 10_000),
            span_ticks: names.kind("ticks under a span", 200_000),
            varied: names.kind("ticks under a span, another command than before", 100_000),
            at: ["at its least command", "at its greatest command", "between"]
                .map(|at| names.kind(format!("ticks under a span, {at}"), 50_000)),
            law: LawKinds::new(names),
            variables: std::array::from_fn(|i| {
                names.kind(format!("sheets that pass: n = {}", i + 1), 20)
            }),
            readings: (names.reports != Reports::Box).then(|| ReadingKinds::new(names)),
        }
    }
}

/// A sheet whose check passes.
struct Scene {
    sheet: Sheet,
    bytes: Vec<u8>,
}

/// A machine drawn toward a center, with walls beside what the recovery check sweeps; nothing where
/// the check does not pass.
fn scene(random: &mut Random, guard: Guard) -> Option<Scene> {
    let n = random.pick(&[1, 1, 2, 2, 3, 4, 5, 6]);
    let kind = random.pick(guard.kinds());
    let mut drawn = drawn(random, n, kind);
    let width = guard.passes(&drawn.sheet)?;
    put_walls(random, &mut drawn, width);
    let sheet = drawn.sheet;
    guard.passes(&sheet)?;
    let bytes = sheet_bytes(&sheet);
    Some(Scene { sheet, bytes })
}

/// Puts walls beside what the recovery check sweeps at a width.
fn put_walls(random: &mut Random, drawn: &mut Drawn, width: u32) {
    let sheet = &mut drawn.sheet;
    let swept = trace_recovery(sheet, width)
        .steps
        .iter()
        .fold(sheet.recovery, |all, step| all.hull(&step.swept));
    let n = sheet.n();
    for j in 0..random.pick(&[1, 2, 4, 8]) {
        let i = random.below(n);
        let cap = i64::from(sheet.caps[i]);
        let gap = random.pick(&[1, 1, 2, cap, 3 * cap]);
        let thick = random.pick(&[0, cap / 2, cap, 2 * cap, 2 * cap, 1_000_000]);
        let mut wall = everywhere(n);
        if random.percent(50) {
            wall.lower[i] = swept.upper[i] + gap;
            wall.upper[i] = wall.lower[i] + thick;
        } else {
            wall.upper[i] = swept.lower[i] - gap;
            wall.lower[i] = wall.upper[i] - thick;
        }
        // Some walls have an end in another variable.
        let other = random.below(n);
        if other != i && random.percent(40) {
            let (center, radius) = (drawn.center[other], drawn.radius[other]);
            wall.lower[other] = center - random.range(0, 2 * radius);
            wall.upper[other] = center + random.range(0, 2 * radius);
        }
        sheet.unsafe_boxes[j] = wall;
        sheet.unsafe_count = j as i32 + 1;
    }
    set_in_order(sheet);
}

/// How the machine takes its changes, and how the plain law picks its command.
#[derive(Clone, Copy)]
enum Adversary {
    /// Any allowed change.
    Random,
    /// Always toward one side in each variable.
    Pushing([bool; VARIABLES]),
    /// Toward the nearest side of a forbidden box.
    Toward(usize),
    /// Away from the recovery box's middle.
    Outward,
    /// An end of the range, either one.
    Ends,
}

struct Run<'a> {
    trial: &'a Trial,
    random: &'a mut Random,
    tally: &'a mut Tally,
    kinds: &'a Kinds,
    scene: &'a Scene,
    state: State,
    adversary: Adversary,
    /// The plain ticks since the last kept period, where one was.
    behind_keep: Option<u32>,
    /// The command of the last tick.
    command: i32,
    /// The state at the start of the period before.
    last: State,
}

impl Run<'_> {
    /// Whether the adversary wants variable i to grow.
    fn upward(&mut self, i: usize) -> bool {
        let sheet = &self.scene.sheet;
        match self.adversary {
            Adversary::Pushing(up) => up[i],
            Adversary::Toward(j) => {
                let target = &sheet.unsafe_boxes[j];
                if self.state[i] < target.lower[i] {
                    true
                } else if self.state[i] > target.upper[i] {
                    false
                } else {
                    self.random.percent(50)
                }
            }
            Adversary::Outward => {
                let middle = (sheet.recovery.lower[i] + sheet.recovery.upper[i]) / 2;
                self.state[i] >= middle
            }
            Adversary::Random | Adversary::Ends => self.random.percent(50),
        }
    }

    /// The variable that a command is picked for: where a target is furthest, in caps.
    fn driven_variable(&mut self) -> usize {
        let sheet = &self.scene.sheet;
        let n = sheet.n();
        let any = self.random.below(n);
        let Adversary::Toward(j) = self.adversary else {
            return any;
        };
        let target = &sheet.unsafe_boxes[j];
        let distance = |i: usize| {
            let below = target.lower[i] - self.state[i];
            let above = self.state[i] - target.upper[i];
            below.max(above).max(0) / i64::from(sheet.caps[i])
        };
        (0..n)
            .max_by_key(|&i| distance(i))
            .filter(|&i| distance(i) > 0)
            .unwrap_or(any)
    }

    /// A command of these at a state in the band: any, or the end that the adversary wants for a
    /// variable.
    fn pick_command(&mut self, commands: CommandRange, band: usize) -> i32 {
        let CommandRange { least, greatest } = commands;
        if matches!(self.adversary, Adversary::Random) || self.random.percent(10) {
            return self.random.int(least, greatest);
        }
        let i = self.random.below(self.scene.sheet.n());
        let raises = self.upward(i) == (self.scene.sheet.bands[band].rows[i].b >= 0);
        if raises {
            greatest
        } else {
            least
        }
    }

    /// The command of a tick: of the kept span, or of the plain law.
    fn command(&mut self, kept: Option<CommandRange>, band: usize) -> i32 {
        let sheet = &self.scene.sheet;
        let Some(span) = kept else {
            return self.plain_command(band);
        };
        if span.least == span.greatest {
            return span.least;
        }
        let command = match self.trial.drive {
            Drive::LeavesSpan => self.pick_command(sheet.commands, band),
            _ => self.pick_command(span, band),
        };
        self.look_at_command(span, command);
        command
    }

    /// A command of the plain law at the state.
    fn plain_command(&mut self, band: usize) -> i32 {
        let sheet = &self.scene.sheet;
        let safety = sheet.bands[band].safety;
        let commands = plain_commands(sheet, &self.state).expect("the state has a band");
        let command = match self.trial.drive {
            Drive::LeavesLaw => self.pick_command(safety, band),
            _ => self.pick_command(commands, band),
        };
        if sheet.kind() == Kind::Following {
            self.look_at_law(safety, commands, command);
        }
        command
    }

    /// Counts where the law's commands lie in the safety range, and which one of them was taken.
    fn look_at_law(&mut self, safety: CommandRange, commands: CommandRange, command: i32) {
        let CommandRange { least, greatest } = commands;
        let kinds = &self.kinds.law;
        let seen = [
            (true, kinds.ticks),
            (greatest == safety.least, kinds.at_least),
            (least == safety.greatest, kinds.at_greatest),
            (
                safety.least < least && greatest < safety.greatest,
                kinds.within,
            ),
            (least < greatest && command == least, kinds.rounded_down),
            (least < greatest && command == greatest, kinds.rounded_up),
            (self.behind_keep.is_some(), kinds.behind_keep),
        ];
        for (_, kind) in seen.into_iter().filter(|&(seen, _)| seen) {
            self.tally.saw(kind);
        }
    }

    /// Counts where a command lies in its span.
    fn look_at_command(&mut self, span: CommandRange, command: i32) {
        self.tally.saw(self.kinds.span_ticks);
        if command != self.command {
            self.tally.saw(self.kinds.varied);
        }
        let ends = [span.least, span.greatest];
        let place = ends.iter().position(|&end| end == command);
        self.tally.saw(self.kinds.at[place.unwrap_or(2)]);
    }

    /// One tick; false where it ends in a forbidden state or misses a return.
    fn tick(&mut self, kept: Option<CommandRange>) -> bool {
        let sheet = &self.scene.sheet;
        let n = sheet.n();
        let v = sheet.band_variable as usize;
        let band = band_of(sheet, self.state[v]).expect("the state has a band");
        let command = self.command(kept, band);
        self.command = command;
        let mut next = self.state;
        for (i, next) in next.iter_mut().enumerate().take(n) {
            let (least, greatest) =
                allowed_change(sheet, &self.state, command, i).expect("the state has a band");
            *next += if matches!(self.adversary, Adversary::Random) {
                self.random.range(least, greatest)
            } else if self.upward(i) {
                greatest
            } else {
                least
            };
        }
        self.state = next;
        self.look_around(band);
        let safe = !sheet.unsafe_boxes().iter().any(|u| u.holds(&next));
        let (scene, state) = (self.scene, self.state);
        self.tally.check(self.kinds.forbidden, safe, || {
            format!("state {state:?} on sheet {}", hex(&scene.bytes))
        });
        safe && (kept.is_some() || self.returned())
    }

    /// Behind a plain tick: false where it is the last of alpha behind a keep and misses the return.
    fn returned(&mut self) -> bool {
        let (scene, state) = (self.scene, self.state);
        let Some(ticks) = &mut self.behind_keep else {
            return true;
        };
        *ticks += 1;
        if *ticks < scene.sheet.alpha as u32 {
            return true;
        }
        self.behind_keep = None;
        let returned = scene.sheet.recovery.holds(&state);
        self.tally.check(self.kinds.returns, returned, || {
            format!("state {state:?} on sheet {}", hex(&scene.bytes))
        });
        if scene.sheet.kind() == Kind::Following {
            self.tally.saw(self.kinds.law.returns);
        }
        returned
    }

    /// Counts where the state is.
    fn look_around(&mut self, band_before: usize) {
        let sheet = &self.scene.sheet;
        let n = sheet.n();
        let v = sheet.band_variable as usize;
        let (state, cap) = (&self.state, i64::from(sheet.caps[v]));
        self.tally.saw(self.kinds.ticks);
        let near_edge = sheet.bands()[1..]
            .iter()
            .any(|band| (state[v] - i64::from(band.edge)).abs() <= cap);
        if near_edge {
            self.tally.saw(self.kinds.near_edge);
        }
        if band_of(sheet, state[v]) != Some(band_before) {
            self.tally.saw(self.kinds.crossings);
        }
        let beside = sheet.unsafe_boxes().iter().any(|u| {
            (0..n).all(|i| {
                let cap = i64::from(sheet.caps[i]);
                u.lower[i] - cap <= state[i] && state[i] <= u.upper[i] + cap
            })
        });
        if beside {
            self.tally.saw(self.kinds.beside);
        }
        if !sheet.recovery.holds(state) {
            self.tally.saw(self.kinds.outside);
        }
    }

    /// A measured box that holds the state.
    fn measured(&mut self) -> StateBox {
        let sheet = &self.scene.sheet;
        let mut measured = StateBox {
            lower: self.state,
            upper: self.state,
        };
        for i in 0..sheet.n() {
            let cap = i64::from(sheet.caps[i]);
            let most = self.random.pick(&[0, 0, 1, cap, 2 * cap]);
            measured.lower[i] -= self.random.range(0, most);
            measured.upper[i] += self.random.range(0, most);
        }
        measured
    }

    /// A command toward where the adversary wants to go, or any.
    fn wanted_command(&mut self) -> i32 {
        let sheet = &self.scene.sheet;
        let CommandRange { least, greatest } = sheet.commands;
        match self.random.below(4) {
            0 => self.random.int(least, greatest),
            turn => {
                let band = band_of(sheet, self.state[sheet.band_variable as usize]);
                let i = self.driven_variable();
                let b = sheet.bands[band.expect("the state has a band")].rows[i].b;
                let strong = if self.upward(i) == (b >= 0) {
                    greatest
                } else {
                    least
                };
                strong / (turn as i32 + 1) * 2
            }
        }
    }

    /// What the drive reports of the state.
    fn reported(&mut self) -> Reported {
        match self.trial.reports {
            Reports::Box => Reported::Box(self.measured()),
            Reports::Readings => Reported::Readings(self.report(self.state)),
            Reports::Late => Reported::Readings(self.report(self.last)),
        }
    }

    /// Readings that allow a state; in some periods a variable has none, or a NaN or an infinity.
    fn report(&mut self, state: State) -> Report {
        let sheet = &self.scene.sheet;
        let rooms = sheet.caps[..sheet.n()].iter().map(|&cap| {
            let cap = i64::from(cap);
            self.random.pick(&[0, 1, 1, 1, cap, 2 * cap])
        });
        let rooms: Vec<i64> = rooms.collect();
        let mut readings = readings_allowing(self.random, &state, &rooms);
        self.look_at_readings(&readings);
        let i = self.random.below(readings.len());
        let none = self
            .random
            .pick(&[f32::NAN, -f32::NAN, f32::INFINITY, f32::NEG_INFINITY]);
        match (self.random.below(100), &mut readings[i]) {
            (0..=2, reading) => *reading = Reading::Missing,
            (3..=5, Reading::Point { value: x, .. } | Reading::Pair { lower: x, .. }) => *x = none,
            _ => {}
        }
        Report::of(self.random, &readings)
    }

    /// Counts readings, and whether they allow the state and their box holds it.
    fn look_at_readings(&mut self, readings: &[Reading]) {
        let (kinds, state) = (self.kinds.readings.as_ref(), self.state);
        let kinds = kinds.expect("the kinds of a trial with readings");
        let measured = measured_box(readings).unwrap_or_default();
        let held = measured
            .iter()
            .zip(&state)
            .all(|(&(lower, upper), x)| (lower..=upper).contains(x));
        let held = held && measured.len() == readings.len();
        self.tally.check(kinds.held, held, || {
            format!("{state:?} not in {measured:?}")
        });
        for (&reading, &x) in readings.iter().zip(&state) {
            self.tally.check(kinds.allowed, allows(reading, x), || {
                format!("{x} by {reading:?}")
            });
            let (of, floats, tolerance) = match reading {
                Reading::Point { value, tolerance } => (kinds.points, [value, value], tolerance),
                Reading::Pair { lower, upper } => (kinds.pairs, [lower, upper], 0.0),
                Reading::Missing => continue,
            };
            let seen = [
                (true, of),
                (floats.iter().any(|x| x.fract() != 0.0), kinds.moved),
                (tolerance.fract() != 0.0, kinds.tolerances),
                (floats.iter().any(|x| (8.0 * x).fract() != 0.0), kinds.noise),
            ];
            self.saw_all(&seen);
        }
    }

    /// Counts the kinds that were seen.
    fn saw_all(&mut self, seen: &[(bool, KindId)]) {
        for &(_, kind) in seen.iter().filter(|(seen, _)| *seen) {
            self.tally.saw(kind);
        }
    }

    /// A question about a command, or about the span around it, and what it is about. A few are damaged;
    /// one that can still be read and is not about this state is none.
    fn question(
        &mut self,
        allowance: u32,
        command: i32,
        room: i32,
        reported: &Reported,
    ) -> Option<(CommandRange, Asked)> {
        let sheet = &self.scene.sheet;
        let span = around(sheet.commands, command, room);
        let mut asked = match (reported, room) {
            (Reported::Box(measured), 0) => {
                Asked::Question(question_bytes(allowance, command, measured, sheet.n()))
            }
            (Reported::Box(measured), _) => {
                Asked::Question(span_bytes(allowance, span, measured, sheet.n()))
            }
            (Reported::Readings(report), _) => {
                let mark = if room == 0 { b"QS" } else { b"QR" };
                Asked::Readings(head_bytes(mark, allowance, span), report.clone())
            }
        };
        if !self.random.percent(2) {
            return Some((span, asked));
        }
        self.damage(&mut asked);
        match asked.read(sheet) {
            Ok(other) if !asked.is_about(&other, sheet, &self.state) => None,
            Ok(other) => Some((other.span, asked)),
            Err(_) => Some((span, asked)),
        }
    }

    /// Changes a bit of what the guard is asked by.
    fn damage(&mut self, asked: &mut Asked) {
        let (bytes, report) = match asked {
            Asked::Question(question) => (question, None),
            Asked::Readings(head, report) => (head, Some(report)),
        };
        match report {
            Some(report) if self.random.percent(70) => {
                let i = self.random.below(report.values.len());
                let bits = report.values[i].to_bits() ^ (1 << self.random.below(32));
                report.values[i] = f32::from_bits(bits);
                if self.random.percent(20) {
                    report.kinds[i / 2] ^= 1 << self.random.below(8);
                }
            }
            _ => {
                let at = self.random.below(bytes.len());
                bytes[at] ^= 0x80;
            }
        }
    }

    /// Asks for ever weaker commands until one is kept; the last question is the period's. Half of the
    /// periods are asked by a span around the command, which gets narrower.
    fn ask(&mut self) -> Option<CommandRange> {
        let scene = self.scene;
        let reported = self.reported();
        let allowance = if self.random.percent(90) {
            1_000_000
        } else {
            self.random.spread(1, 1_000) as u32
        };
        let mut command = self.wanted_command();
        let mut room = match self.random.below(2) {
            0 => 0,
            _ => {
                let strongest = scene.sheet.commands.greatest;
                self.random.spread(1, strongest.into()) as i32
            }
        };
        let mut tries = self.random.pick(&[1, 6, 12]);
        loop {
            let Some((span, asked)) = self.question(allowance, command, room, &reported) else {
                continue;
            };
            let guard = self.trial.guard;
            let (code, width) = guard.answer(&scene.sheet, &scene.bytes, &asked);
            tries -= 1;
            if code == 0 || tries == 0 {
                self.look_at_answer(code, width, span, &asked);
                return (code == 0).then_some(span);
            }
            command = command * 3 / 4;
            room = (room * 3 / 4).max(room.min(1));
        }
    }

    /// Counts the answer to the period's question.
    fn look_at_answer(&mut self, code: u64, width: u32, span: CommandRange, asked: &Asked) {
        let (sheet, kinds) = (&self.scene.sheet, self.kinds);
        let several = span.least < span.greatest;
        let refined = width < sheet.delta.max(sheet.alpha) as u32;
        let outside = !sheet.recovery.holds(&self.state);
        let by_law = sheet.kind() == Kind::Following;
        self.tally.saw(match code {
            0 => kinds.keeps,
            1 => kinds.finest,
            2 => kinds.spent,
            _ => kinds.refused,
        });
        let asked_before = self.tally.seen(kinds.keeps).is_multiple_of(8);
        let won = code == 0 && asked_before && self.handed_over_before(asked);
        self.saw_all(&[
            (code == 0 && refined, kinds.keeps_refined),
            (code == 0 && outside, kinds.keeps_outside),
            (won, kinds.keeps_won),
            (code == 0 && several, kinds.spans_kept),
            (code == 0 && several && refined, kinds.spans_refined),
            (code == 1 && several, kinds.spans_finest),
            (code == 0 && by_law, kinds.law.keeps),
            (code == 1 && by_law, kinds.law.finest),
        ]);
        self.look_at_reported(code, width, asked);
    }

    /// Counts the answer where the question was asked by readings.
    fn look_at_reported(&mut self, code: u64, width: u32, asked: &Asked) {
        let Some(kinds) = &self.kinds.readings else {
            return;
        };
        let is_whole = |reading: &Reading| {
            let floats = match *reading {
                Reading::Point { value, tolerance } => [value, tolerance],
                Reading::Pair { lower, upper } => [lower, upper],
                Reading::Missing => return true,
            };
            floats.iter().all(|x| x.fract() == 0.0)
        };
        let readings = asked.readings(self.scene.sheet.n());
        let all_whole = readings.iter().all(is_whole);
        self.saw_all(&[
            (code == 3 && width == 18, kinds.missing),
            (code == 3 && width == 19, kinds.not_a_number),
            (code == 0 && !all_whole, kinds.kept),
            (code == 1 && !all_whole, kinds.finest),
        ]);
    }

    /// A question that is not refused was handed over before paper 3 of document 02.
    fn handed_over_before(&self, asked: &Asked) -> bool {
        let (sheet, bytes) = (&self.scene.sheet, &self.scene.bytes);
        let question = asked.read(sheet).expect("a question that is not refused");
        decide_before(bytes, &bytes_of(&question, sheet.n())).code() != 0
    }

    fn pick_adversary(&mut self) {
        let boxes = self.scene.sheet.unsafe_boxes().len();
        self.adversary = match self.random.below(12) {
            0 => Adversary::Random,
            1 => Adversary::Ends,
            2 | 3 => {
                let mut up = [false; VARIABLES];
                for side in &mut up {
                    *side = self.random.percent(50);
                }
                Adversary::Pushing(up)
            }
            4 => Adversary::Outward,
            _ => Adversary::Toward(self.random.below(boxes)),
        };
    }

    /// The periods of one run; false where it failed.
    fn periods(&mut self) -> bool {
        let sheet = &self.scene.sheet;
        let mut quiet = 0;
        for _ in 0..self.trial.periods {
            if self.random.percent(2) {
                self.pick_adversary();
            }
            let kept = if quiet > 0 || self.random.percent(3) {
                quiet = (quiet - 1).max(0);
                self.tally.saw(self.kinds.no_question);
                None
            } else {
                self.ask()
            };
            self.last = self.state;
            for _ in 0..sheet.delta {
                if !self.tick(kept) {
                    return false;
                }
            }
            if kept.is_some() {
                self.behind_keep = Some(0);
                if self.random.percent(12) {
                    // Enough periods without a question for a return.
                    quiet = (sheet.alpha + sheet.delta - 1) / sheet.delta;
                }
            }
        }
        true
    }
}

/// The commands so far around one, as far as the head has them.
fn around(commands: CommandRange, command: i32, room: i32) -> CommandRange {
    CommandRange {
        least: (command - room).max(commands.least),
        greatest: (command + room).min(commands.greatest),
    }
}

/// A first state in the recovery box, often in a corner of it.
fn first_state(random: &mut Random, sheet: &Sheet) -> State {
    let mut state = [0; VARIABLES];
    for (i, x) in state.iter_mut().enumerate().take(sheet.n()) {
        let (lower, upper) = (sheet.recovery.lower[i], sheet.recovery.upper[i]);
        *x = match random.below(3) {
            0 => lower,
            1 => upper,
            _ => random.range(lower, upper),
        };
    }
    state
}

/// What is run, and how long.
struct Trial {
    guard: Guard,
    drive: Drive,
    reports: Reports,
    seed: u64,
    periods: usize,
    ticks: u64,
    patience: Duration,
}

impl Trial {
    /// One in which nothing should be found.
    fn sound(guard: Guard, ticks: u64) -> Trial {
        Trial {
            guard,
            drive: Drive::Obeys,
            reports: Reports::Box,
            seed: 11,
            periods: PERIODS,
            ticks,
            patience: Duration::MAX,
        }
    }

    /// One in which a fault should be found.
    fn faulty(guard: Guard, drive: Drive) -> Trial {
        Trial {
            drive,
            periods: FAULTY_PERIODS,
            patience: PATIENCE,
            ..Trial::sound(guard, u64::MAX)
        }
    }

    /// The same where the drive reports readings; of so many ticks it takes a part.
    fn by(self, reports: Reports) -> Trial {
        Trial {
            reports,
            seed: 12,
            ticks: self.ticks / READING_PART,
            ..self
        }
    }
}

/// Runs sheet after sheet; the answer is whether all went well.
fn simulate(trial: &Trial, tally: &mut Tally) -> bool {
    let reports = trial.reports;
    let kinds = Kinds::new(&mut Names { tally, reports });
    let mut random = Random::new(trial.seed);
    let start = Instant::now();
    // A guard under which hardly any sheet passes comes to an end, too.
    let mut drawn = 0_u64;
    while tally.seen(kinds.ticks) < trial.ticks && start.elapsed() < trial.patience {
        drawn += 1;
        if drawn > 10_000 && tally.seen(kinds.sheets) < drawn / 100 {
            break;
        }
        let Some(scene) = scene(&mut random, trial.guard) else {
            continue;
        };
        tally.saw(kinds.sheets);
        tally.saw(kinds.variables[scene.sheet.n() - 1]);
        if scene.sheet.kind() == Kind::Following {
            tally.saw(kinds.law.sheets);
        }
        let state = first_state(&mut random, &scene.sheet);
        let mut run = Run {
            trial,
            random: &mut random,
            tally,
            kinds: &kinds,
            scene: &scene,
            state,
            adversary: Adversary::Random,
            behind_keep: None,
            command: 0,
            last: state,
        };
        run.pick_adversary();
        if !run.periods() {
            return false;
        }
    }
    true
}

/// The guard that bounds laws by this rule.
fn by_rule(rule: Rule) -> Guard {
    let guard = OTHER_GUARDS.into_iter().find(|guard| guard.rule == rule);
    Guard::Other(guard.expect("a rule of the list"))
}

/// The faulty guards, and the faulty drives, that have to be found out.
fn faults() -> Vec<(&'static str, Trial)> {
    let none = Faults::default();
    let faulty = |name, faults| (name, Trial::faulty(Guard::Faulty(faults), Drive::Obeys));
    let bounded = |name, bounded| faulty(name, Faults { bounded, ..none });
    let law = |name, rule| (name, Trial::faulty(by_rule(rule), Drive::Obeys));
    let drive = |name, drive| (name, Trial::faulty(Guard::Faulty(none), drive));
    let swept = Faults {
        end_boxes_only: true,
        ..none
    };
    let measured = Faults {
        baseline_from_measured: true,
        ..none
    };
    let mut faults = vec![
        faulty("swept", swept),
        faulty("measured", measured),
        ("keeps", Trial::faulty(Guard::AlwaysKeeps, Drive::Obeys)),
        bounded("inner", Bounded::Inner),
        bounded("least", Bounded::Least),
        bounded("greatest", Bounded::Greatest),
        drive("drive", Drive::LeavesSpan),
        law("law_least", Rule::LawFromItsLeast),
        law("law_greatest", Rule::LawFromItsGreatest),
        law("law_head", Rule::LawWithinTheHead),
        law("law_middle", Rule::LawInTheMiddle),
        drive("law_drive", Drive::LeavesLaw),
    ];
    faults.extend(reading_faults());
    faults
}

/// Guards that round readings otherwise, and a drive that reports late.
fn reading_faults() -> [(&'static str, Trial); 5] {
    let rounding = |name, rule| {
        let trial = Trial::faulty(Guard::Rounding(rule), Drive::Obeys);
        (name, trial.by(Reports::Readings))
    };
    let sound = Guard::Faulty(Faults::default());
    let late = Trial::faulty(sound, Drive::Obeys).by(Reports::Late);
    [
        rounding("toward_zero", Rounding::TowardZero),
        rounding("nearest", Rounding::ToNearest),
        rounding("ceiling", Rounding::NearestCeilingDropped),
        rounding("tolerance", Rounding::ToleranceDropped),
        ("late", late),
    ]
}

/// Trials in which nothing should be found. A guard that drops the ceiling of a tolerance and no other
/// rounding is one: states are whole, and its box still holds every whole number that a reading allows. Its
/// answers are others, which the matching counts.
fn harmless() -> [(&'static str, Trial); 3] {
    let sound = |guard| Trial::sound(guard, TICKS / 4);
    let second = Guard::Faulty(Faults::default());
    let dropped = Guard::Rounding(Rounding::CeilingDropped);
    [
        ("without a fault", sound(second)),
        ("by readings", sound(second).by(Reports::Readings)),
        (
            "where a tolerance is rounded down",
            sound(dropped).by(Reports::Readings),
        ),
    ]
}

/// Each fault is found out, and nothing is where there should not.
fn self_test() -> i32 {
    let mut failed = 0;
    let mut passed = 0;
    let mut verdict = |name: &str, right: bool, seconds: f64| {
        println!(
            "{name}: {} in {seconds:.1} s",
            if right { "ok" } else { "FAILED" }
        );
        if right {
            passed += 1;
        } else {
            failed += 1;
        }
    };
    for (name, trial) in faults() {
        let start = Instant::now();
        let well = simulate(&trial, &mut Tally::new());
        verdict(
            &format!("fault {name} is found"),
            !well,
            start.elapsed().as_secs_f64(),
        );
    }
    for (name, trial) in harmless() {
        let start = Instant::now();
        let well = simulate(&trial, &mut Tally::new());
        verdict(
            &format!("nothing is found {name}"),
            well,
            start.elapsed().as_secs_f64(),
        );
    }
    println!("{passed} passed, {failed} failed");
    i32::from(failed > 0)
}

fn main() {
    let arguments: Vec<String> = std::env::args().skip(1).collect();
    let words: Vec<&str> = arguments.iter().map(String::as_str).collect();
    let trials = match words[..] {
        [] => {
            let sound = || Trial::sound(Guard::Archive, TICKS);
            vec![sound(), sound().by(Reports::Readings)]
        }
        ["--self-test"] => std::process::exit(self_test()),
        ["--fault", name] => match faults().into_iter().find(|fault| fault.0 == name) {
            Some((_, trial)) => vec![trial],
            None => usage(),
        },
        _ => usage(),
    };
    let mut tally = Tally::new();
    for trial in trials {
        let start = Instant::now();
        simulate(&trial, &mut tally);
        println!("{:.1} s", start.elapsed().as_secs_f64());
    }
    std::process::exit(tally.finish());
}

fn usage() -> ! {
    let names: Vec<&str> = faults().iter().map(|fault| fault.0).collect();
    eprintln!("simulator [--fault {} | --self-test]", names.join("|"));
    std::process::exit(2);
}
