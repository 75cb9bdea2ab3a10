//! The archive against the second guard on sheets and questions from fixed seeds: values read,
//! bytes written, recovery checks, decisions and reach boxes. It fails where an answer differs
//! or a kind of case is too rare.

mod faults;
mod laws;
mod order;
mod overlap;
mod readings;
mod spans;

use laws::Call;
use matching::aim::{aimed, PLACES};
use matching::archive::format::{
    reach_length, slot_band, slot_unsafe, LONGEST_SHEET, NUMBERS, SLOT_BAND, SLOT_CAPS,
    SLOT_RECOVERY,
};
use matching::archive::sheet_archive::{self, SheetArchive};
use matching::archive::{self, Answer, ReachCall};
use matching::expected;
use matching::generate::{
    bytes_of, cut_recovery, everyday, long_times, model, near, pick_command, question_bytes,
    question_near, shape, sheet_bytes, slow_growth, times, widths, worst_case, worst_case_of, Case,
    Everyday, Shape, BOUNDS,
};
use matching::laws::{kind_of_bytes, kind_of_numbers};
use matching::random::Random;
use matching::spoil::{damage, damage_number, refusal_place, REFUSALS};
use matching::tally::{hex, KindId, Tally};
use second_guard::boxes::{StateBox, VARIABLES};
use second_guard::changes::Change;
use second_guard::decision::{
    check_recovery_watched, decide_watched, read_question, trace, Decision, Faults, Question,
    RecoveryCheck,
};
use second_guard::neighborhoods::{neighborhoods, Face};
use second_guard::reach::{Step, Watch};
use second_guard::sheet::{CommandRange, Kind, Sheet};
use std::collections::HashMap;
use std::ops::ControlFlow;
use std::time::Instant;

/// How many sheets of everyday times, of long times at most, of slow growth, and aimed at caps.
const SHEETS: usize = 30_000;
const LONG_SHEETS: usize = 20_000;
const SLOW_SHEETS: usize = 3_000;
const AIMED_SHEETS: usize = 16_000;
/// Long sheets go on until each number of halvings has so many keeps.
const LONG_KEEPS: u64 = 400;
/// So many of each pair of faults and of each damage.
const PAIRS: u64 = 210;
const DAMAGED: usize = 6_000;
/// Bytes behind a lent buffer, which have to stay as they are.
const BEHIND: usize = 64;

/// Where an edge may lie: at a neighborhood's side, or so far above it.
const EDGES: usize = 4;
const EDGE_AT: [(Face, i64, &str); EDGES] = [
    (Face::Lower, 0, "neighborhood from an edge on"),
    (Face::Lower, 1, "neighborhood from just below an edge on"),
    (Face::Upper, 0, "neighborhood up to an edge"),
    (Face::Upper, 1, "neighborhood up to just below an edge"),
];

/// A numerator is counted where q·cap is at least this, so that few are met by chance; and once more
/// where q·cap is the greatest that there is.
const LEAST_LIMIT: i64 = 1_000;
const GREATEST_LIMIT: i64 = 4_096_000;

/// What a lower and an upper face look at.
const LOOKS_AT: [&str; 2] = ["N - d", "N + d"];

/// What a decision did on the way.
#[derive(Default)]
struct Sight {
    most_bands: usize,
    cut_twice: bool,
    /// A neighborhood has an edge on its lower or upper side, or just above it.
    edge_at: [bool; EDGES],
    /// A face has its numerator just there; also with the greatest q·cap.
    numerator_at: [[bool; PLACES.len()]; 2],
    greatest_at: [bool; PLACES.len()],
    halvings: u32,
    most_halvings: u32,
}

impl Watch for Sight {
    fn change(&mut self, change: Change) {
        let (size, limit) = (change.numerator.abs(), change.limit());
        let off = size > 1 && !(limit - 1..=limit).contains(&size);
        if limit < LEAST_LIMIT || off {
            return;
        }
        let face = usize::from(change.face == Face::Upper);
        for (place, at) in PLACES.into_iter().enumerate() {
            let seen = change.is_at(at);
            self.numerator_at[face][place] |= seen;
            self.greatest_at[place] |= seen && limit == GREATEST_LIMIT;
        }
    }

    fn round(&mut self, sheet: &Sheet, start: &StateBox, enclosure: &StateBox, ticks: u32) {
        for around in neighborhoods(sheet, start, enclosure, ticks) {
            self.most_bands = self.most_bands.max(around.bands.len());
            self.cut_twice |= around.cut_twice(sheet);
            for (seen, (side, above, _)) in self.edge_at.iter_mut().zip(EDGE_AT) {
                *seen |= around.edge_at(sheet, side, above);
            }
        }
    }

    fn halved(&mut self, _ticks: u32) {
        self.halvings += 1;
        self.most_halvings = self.most_halvings.max(self.halvings);
    }

    fn settled(&mut self, _step: &Step) -> ControlFlow<()> {
        self.halvings = 0;
        ControlFlow::Continue(())
    }
}

/// All kinds of cases with their least numbers.
struct Kinds {
    sizes: KindId,
    calls: KindId,
    decisions: KindId,
    keep: KindId,
    finest: KindId,
    spent: KindId,
    keep_after: Vec<KindId>,
    two_bands: KindId,
    three_bands: KindId,
    cut_twice: KindId,
    edge_at: [KindId; EDGES],
    numerator_at: [[KindId; PLACES.len()]; 2],
    greatest_at: [KindId; PLACES.len()],
    other_before: KindId,
    halved_twice: KindId,
    many_rounds: KindId,
    allowance_zero: KindId,
    one_less: KindId,
    exactly_enough: KindId,
    spent_lower: KindId,
    spent_between: KindId,
    beside: KindId,
    touching: KindId,
    by_variables: Vec<KindId>,
    sheets: KindId,
    values_read: KindId,
    bytes_written: KindId,
    recovery_pass: KindId,
    recovery_pass_later: KindId,
    recovery_fail: KindId,
    reaches: KindId,
    reach_no_ticks: KindId,
    reach_several_bands: KindId,
    reach_ignores_command: KindId,
    damaged_sheets: KindId,
    damaged_questions: KindId,
    damaged_numbers: KindId,
    cut_bytes: KindId,
    refusals: Vec<KindId>,
    order: order::Kinds,
    overlap: overlap::Kinds,
    spans: spans::Kinds,
    laws: laws::Kinds,
    readings: readings::Kinds,
    /// Of two faults, by their names.
    pairs: HashMap<String, KindId>,
}

impl Kinds {
    fn new(tally: &mut Tally) -> Kinds {
        Kinds {
            sizes: tally.kind("numbers of the archive and of the header", 2),
            calls: tally.kind("calls in all", 300_000),
            decisions: tally.kind("decisions", 200_000),
            keep: tally.kind("keep", 2_000),
            finest: tally.kind("finest", 2_000),
            spent: tally.kind("spent", 2_000),
            keep_after: (0..10)
                .map(|h| tally.kind(format!("keep after {h} halvings of the width"), 100))
                .collect(),
            two_bands: tally.kind("neighborhood over two bands", 200),
            three_bands: tally.kind("neighborhood over three bands or more", 200),
            cut_twice: tally.kind("band variable's neighborhood cut by depth and edge", 2_000),
            edge_at: EDGE_AT.map(|(_, _, name)| tally.kind(name, 2_000)),
            numerator_at: LOOKS_AT.map(|looks_at| {
                PLACES.map(|at| tally.kind(format!("{looks_at} at {}", at.text()), 2_000))
            }),
            greatest_at: PLACES.map(|at| {
                let name = format!("q*cap 4,096,000: N - d or N + d at {}", at.text());
                tally.kind(name, 1_000)
            }),
            other_before: tally.kind("another answer before paper 3 of document 02", 2_000),
            halved_twice: tally.kind("a step halves twice or more", 200),
            many_rounds: tally.kind("decisions of over 100,000 rounds", 3),
            allowance_zero: tally.kind("allowance 0", 200),
            one_less: tally.kind("allowance one less than needed", 200),
            exactly_enough: tally.kind("allowance exactly enough", 200),
            spent_lower: tally.kind("spent at a lower width than the first", 200),
            spent_between: tally.kind("spent right after a failed attempt", 200),
            beside: tally.kind("unsafe box beside the swept box: keep", 200),
            touching: tally.kind("unsafe box touching the swept box: no keep there", 200),
            by_variables: (1..=VARIABLES)
                .map(|n| tally.kind(format!("decisions with n = {n}"), 200))
                .collect(),
            sheets: tally.kind("sheets accepted", 200),
            values_read: tally.kind("values read", 200),
            bytes_written: tally.kind("bytes written", 200),
            recovery_pass: tally.kind("recovery check passes", 200),
            recovery_pass_later: tally.kind("recovery check passes at a lower width", 200),
            recovery_fail: tally.kind("recovery check fails", 200),
            reaches: tally.kind("reach boxes", 200),
            reach_no_ticks: tally.kind("reach of no ticks", 200),
            reach_several_bands: tally.kind("reach on a sheet of several bands", 200),
            reach_ignores_command: tally.kind("baseline reach with any command", 200),
            damaged_sheets: tally.kind("damaged bytes of sheets", 200),
            damaged_questions: tally.kind("damaged bytes of questions", 200),
            damaged_numbers: tally.kind("damaged numbers", 200),
            cut_bytes: tally.kind("cut bytes", 200),
            refusals: REFUSALS
                .map(|number| tally.kind(format!("refused by {number}"), 200))
                .to_vec(),
            order: order::Kinds::new(tally),
            overlap: overlap::Kinds::new(tally),
            spans: spans::Kinds::new(tally),
            laws: laws::Kinds::new(tally),
            readings: readings::Kinds::new(tally),
            pairs: HashMap::new(),
        }
    }

    /// The kinds of an answer on a sheet.
    fn of_answer(&self, sheet: &Sheet, decision: Decision) -> Vec<KindId> {
        let (mut kinds, rounds) = match decision {
            Decision::Keep { width, rounds } => {
                let turn = widths(sheet).iter().position(|&w| w == width);
                let turn = turn.expect("a width of the sheet");
                (vec![self.keep, self.keep_after[turn]], rounds)
            }
            Decision::Finest { rounds, .. } => (vec![self.finest], rounds),
            Decision::Spent { width, rounds } if width < widths(sheet)[0] => {
                (vec![self.spent, self.spent_lower], rounds)
            }
            Decision::Spent { rounds, .. } => (vec![self.spent], rounds),
            Decision::Refused(_) => unreachable!("sheet and question are in range"),
        };
        if rounds > 100_000 {
            kinds.push(self.many_rounds);
        }
        kinds
    }

    /// The kinds of what a decision did on the way.
    fn of_sight(&self, sight: &Sight) -> Vec<KindId> {
        let places = sight.numerator_at.iter().flatten();
        let greatest = sight.greatest_at.iter().zip(&self.greatest_at);
        let seen = [
            (&(sight.most_bands == 2), &self.two_bands),
            (&(sight.most_bands > 2), &self.three_bands),
            (&sight.cut_twice, &self.cut_twice),
            (&(sight.most_halvings >= 2), &self.halved_twice),
        ];
        seen.into_iter()
            .chain(sight.edge_at.iter().zip(&self.edge_at))
            .chain(places.zip(self.numerator_at.iter().flatten()))
            .chain(greatest)
            .filter_map(|(&seen, &kind)| seen.then_some(kind))
            .collect()
    }
}

struct Matching {
    random: Random,
    tally: Tally,
    kinds: Kinds,
}

fn show(answer: Answer) -> String {
    format!(
        "code {} w {} rounds {}",
        answer.code(),
        answer.width(),
        answer.rounds()
    )
}

impl Matching {
    fn new() -> Matching {
        let mut tally = Tally::new();
        let kinds = Kinds::new(&mut tally);
        Matching {
            random: Random::new(1),
            tally,
            kinds,
        }
    }

    /// Counts the case under these kinds, and under its refusal if it has one.
    fn note(
        &mut self,
        kinds: &[KindId],
        wanted: Answer,
        right: bool,
        describe: impl FnOnce() -> String,
    ) {
        let refused = wanted
            .refusal()
            .map(|number| self.kinds.refusals[refusal_place(number)]);
        for kind in kinds.iter().copied().chain(refused) {
            self.tally.saw(kind);
            if !right {
                self.tally.mark_wrong(kind);
            }
        }
        self.tally.check(self.kinds.calls, right, describe);
    }

    /// A sheet's refusal, and its numbers by the archive of the crate `sheet_c` alone.
    fn call_sheet(&mut self, kinds: &[KindId], sheet: &[u8]) -> Answer {
        let (wanted, found) = (expected::sheet(sheet), archive::sheet(sheet));
        let (mut wanted_numbers, mut numbers) = ([0x77; NUMBERS], [0x77; NUMBERS]);
        let same = expected::numbers(sheet, &mut wanted_numbers)
            == SheetArchive::new().read(sheet, &mut numbers)
            && wanted_numbers == numbers;
        self.note(kinds, wanted, wanted == found && same, || {
            format!(
                "sheet {}: wanted {}, found {}, same numbers {same}",
                hex(sheet),
                show(wanted),
                show(found)
            )
        });
        wanted
    }

    fn call_recovery(&mut self, kinds: &[KindId], sheet: &[u8]) -> Answer {
        let (wanted, found) = (expected::recovery(sheet), archive::recovery(sheet));
        self.by_kind(kind_of_bytes(sheet), Call::Recovery, found);
        self.note(kinds, wanted, wanted == found, || {
            format!(
                "recovery {}: wanted {}, found {}",
                hex(sheet),
                show(wanted),
                show(found)
            )
        });
        wanted
    }

    fn call_decide(&mut self, kinds: &[KindId], sheet: &[u8], question: &[u8]) -> Answer {
        let wanted = expected::decide(sheet, question);
        self.compare_decision(kinds, sheet, question, wanted);
        wanted
    }

    fn compare_decision(
        &mut self,
        kinds: &[KindId],
        sheet: &[u8],
        question: &[u8],
        wanted: Answer,
    ) {
        let found = archive::decide(sheet, question);
        self.by_mark(sheet, question, found);
        self.by_kind(kind_of_bytes(sheet), Call::Decide, found);
        self.note(kinds, wanted, wanted == found, || {
            format!(
                "decide {} {}: wanted {}, found {}",
                hex(sheet),
                hex(question),
                show(wanted),
                show(found)
            )
        });
    }

    fn call_read(&mut self, kinds: &[KindId], sheet: &[u8]) -> Answer {
        let (mut wanted_numbers, mut numbers) = ([0x77; NUMBERS], [0x77; NUMBERS]);
        let wanted = expected::sheet_read(sheet, &mut wanted_numbers);
        let found = archive::sheet_read(sheet, &mut numbers);
        self.by_kind(kind_of_bytes(sheet), Call::Read, found);
        let right = wanted == found && wanted_numbers == numbers;
        self.note(kinds, wanted, right, || {
            format!(
                "read {}: wanted {}, found {}, same numbers {}",
                hex(sheet),
                show(wanted),
                show(found),
                wanted_numbers == numbers
            )
        });
        wanted
    }

    fn call_write(
        &mut self,
        kinds: &[KindId],
        numbers: &[i32; NUMBERS],
        room: usize,
        place: u64,
    ) -> Answer {
        let mut wanted_buffer = vec![0; room + BEHIND];
        self.random.fill(&mut wanted_buffer);
        let mut found_buffer = wanted_buffer.clone();
        let wanted = expected::sheet_write(numbers, &mut wanted_buffer[..room], place);
        let found = archive::sheet_write(numbers, &mut found_buffer[..room], place);
        self.by_kind(kind_of_numbers(numbers), Call::Write, found);
        let right = wanted == found && wanted_buffer == found_buffer;
        self.note(kinds, wanted, right, || {
            format!(
                "write {numbers:?} to {place} of {room}: wanted {}, found {}, same buffer {}",
                show(wanted),
                show(found),
                wanted_buffer == found_buffer
            )
        });
        wanted
    }

    fn call_reach(
        &mut self,
        kinds: &[KindId],
        sheet: &[u8],
        call: ReachCall,
        start: &[u8],
        room: usize,
    ) -> Answer {
        let mut wanted_out = vec![0x77; room + BEHIND];
        let mut found_out = wanted_out.clone();
        let wanted = expected::reach(sheet, call, start, &mut wanted_out[..room]);
        let found = archive::reach(sheet, call, start, &mut found_out[..room]);
        if call.law == 0 {
            self.by_kind(kind_of_bytes(sheet), Call::PlainReach, found);
        }
        let right = wanted == found && wanted_out == found_out;
        self.note(kinds, wanted, right, || {
            format!(
                "reach {} {call:?} {}: wanted {} {}, found {} {}",
                hex(sheet),
                hex(start),
                show(wanted),
                hex(&wanted_out),
                show(found),
                hex(&found_out)
            )
        });
        wanted
    }

    /// A decision on a sheet and a question that are accepted; gives the second guard's answer.
    fn decision(&mut self, sheet: &Sheet, bytes: &[u8], question: &Question) -> Decision {
        let question_bytes = bytes_of(question, sheet.n());
        let mut sight = Sight::default();
        let decision = decide_watched(sheet, question, Faults::default(), &mut sight);
        debug_assert_eq!(read_question(sheet, &question_bytes), Ok(*question));
        let mut kinds = vec![self.kinds.decisions, self.kinds.by_variables[sheet.n() - 1]];
        kinds.extend(self.kinds.of_answer(sheet, decision));
        kinds.extend(self.kinds.of_sight(&sight));
        if expected::decide_before(bytes, &question_bytes) != Answer(decision.pack()) {
            kinds.push(self.kinds.other_before);
        }
        if question.allowance == 0 {
            kinds.push(self.kinds.allowance_zero);
        }
        self.compare_decision(&kinds, bytes, &question_bytes, Answer(decision.pack()));
        decision
    }

    /// The decision with all rounds it needs, then with the allowances around them.
    fn decisions_around(&mut self, case: &Case, bytes: &[u8], spare: usize) -> Decision {
        let sheet = &case.sheet;
        let mut question = Question {
            allowance: 1_000_000,
            span: CommandRange::one(case.command),
            measured: case.measured,
        };
        let decision = self.decision(sheet, bytes, &question);
        let (Decision::Keep { rounds, .. } | Decision::Finest { rounds, .. }) = decision else {
            unreachable!("a million rounds are enough");
        };
        question.allowance = rounds as u32;
        let exact = self.decision(sheet, bytes, &question);
        let right = exact == decision;
        self.tally
            .check(self.kinds.exactly_enough, right, || "not the same".into());
        question.allowance = rounds as u32 - 1;
        let less = self.decision(sheet, bytes, &question);
        let right = matches!(less, Decision::Spent { rounds: count, .. } if count == rounds - 1);
        self.tally
            .check(self.kinds.one_less, right, || "not spent".into());
        question.allowance = 0;
        self.decision(sheet, bytes, &question);
        for _ in 0..spare {
            question.allowance = self.random.below(rounds as usize) as u32;
            self.decision(sheet, bytes, &question);
        }
        // As many rounds as the first attempt takes, where that one fails.
        let first = trace(sheet, &question, widths(sheet)[0], Faults::default());
        if let (false, Some(&second)) = (first.succeeded, widths(sheet).get(1)) {
            question.allowance = first.rounds as u32;
            let between = self.decision(sheet, bytes, &question);
            let right = between
                == Decision::Spent {
                    width: second,
                    rounds: first.rounds,
                };
            self.tally.check(self.kinds.spent_between, right, || {
                "not spent with the next width".into()
            });
        }
        decision
    }

    /// Reading and writing the sheet, its recovery check, and reaches on it.
    fn sheet_calls(&mut self, case: &Case, bytes: &[u8]) {
        let sheet = &case.sheet;
        let n = sheet.n();
        self.call_sheet(&[self.kinds.sheets], bytes);
        self.call_read(&[self.kinds.values_read], bytes);

        let mut numbers = sheet.numbers();
        if self.random.percent(30) {
            // Values beyond the counts do not matter.
            let slot = self.random.below(NUMBERS);
            let beyond = (SLOT_CAPS + n..SLOT_BAND).contains(&slot)
                || (slot_band(sheet.band_count as usize)..SLOT_RECOVERY).contains(&slot)
                || slot >= slot_unsafe(sheet.unsafe_count as usize);
            if beyond {
                numbers[slot] = self.random.bits() as i32;
            }
        }
        let place = self.random.pick(&[0, 0, 1, 7, 300]);
        let room = place as usize + bytes.len() + self.random.pick(&[0, 0, 1, 50]);
        self.call_write(&[self.kinds.bytes_written], &numbers, room, place);

        for _ in 0..2 {
            let ticks = if self.random.percent(10) {
                0
            } else {
                self.random.spread(1, 60) as u32
            };
            let call = ReachCall {
                ticks,
                width: self.random.spread(1, 80) as u32,
                law: self.random.pick(&[0, 1, 1, u32::MAX]),
                command: pick_command(&mut self.random, sheet),
            };
            let start = near(&mut self.random, case);
            self.reach_on(sheet, bytes, call, &start);
        }
    }

    fn reach_on(&mut self, sheet: &Sheet, bytes: &[u8], mut call: ReachCall, start: &StateBox) {
        let n = sheet.n();
        let mut kinds = vec![self.kinds.reaches];
        if call.ticks == 0 {
            kinds.push(self.kinds.reach_no_ticks);
        }
        if sheet.band_count > 1 {
            kinds.push(self.kinds.reach_several_bands);
        }
        if call.law == 0 && self.random.percent(50) {
            call.command = self.random.pick(&[i32::MIN, i32::MAX, 10_001]);
            kinds.push(self.kinds.reach_ignores_command);
        }
        let room = reach_length(n) + self.random.pick(&[0, 0, 3]);
        self.call_reach(&kinds, bytes, call, &expected::pairs(start, n), room);
    }

    fn recovery_check(&mut self, sheet: &Sheet, bytes: &[u8]) {
        let kind = match check_recovery_watched(sheet, &mut Sight::default()) {
            RecoveryCheck::Pass { width, .. } if width < sheet.rho as u32 => {
                self.kinds.recovery_pass_later
            }
            RecoveryCheck::Pass { .. } => self.kinds.recovery_pass,
            _ => self.kinds.recovery_fail,
        };
        self.call_recovery(&[kind], bytes);
    }

    fn everyday(&mut self) {
        for turn in 0..SHEETS {
            let Everyday {
                case,
                shape: shaped,
                halvings,
            } = everyday(&mut self.random);
            let bytes = sheet_bytes(&case.sheet);
            self.sheet_calls(&case, &bytes);
            let decision = self.decisions_around(&case, &bytes, 4);
            let width = widths(&case.sheet)[halvings];
            let kept_there = matches!(decision, Decision::Keep { width: w, .. } if w == width);
            match shaped {
                Shape::Beside => {
                    if kept_there {
                        self.tally.saw(self.kinds.beside);
                    }
                }
                Shape::Touching => {
                    self.tally.check(self.kinds.touching, !kept_there, || {
                        format!("kept on {}", hex(&bytes))
                    });
                }
                Shape::ByRecovery | Shape::None => {}
            }
            for _ in 0..7 {
                let question = question_near(&mut self.random, &case);
                self.decision(&case.sheet, &bytes, &question);
            }
            if turn % 4 == 0 {
                self.recovery_check(&case.sheet, &bytes);
                // The same machine with its recovery box where a reach of it ends.
                self.passing_check(&case);
            }
        }
    }

    /// A recovery box that the baseline brings back to itself, as far as one is found.
    fn passing_check(&mut self, case: &Case) {
        let mut sheet = case.sheet;
        let n = sheet.n();
        for _ in 0..6 {
            let check = check_recovery_watched(&sheet, &mut Sight::default());
            if matches!(check, RecoveryCheck::Pass { .. }) {
                break;
            }
            let before = sheet.recovery;
            for i in 0..n {
                let cap = i64::from(sheet.caps[i]);
                let grow = self.random.spread(1, 30 * cap);
                sheet.recovery.lower[i] = (sheet.recovery.lower[i] - grow).max(-1_000_000);
                sheet.recovery.upper[i] = (sheet.recovery.upper[i] + grow).min(1_000_000);
            }
            cut_recovery(&mut sheet, &before);
        }
        let bytes = sheet_bytes(&sheet);
        self.recovery_check(&sheet, &bytes);
    }

    /// Decisions whose first width halves nine times.
    fn long(&mut self) {
        for _ in 0..LONG_SHEETS {
            let rare: Vec<usize> = (0..10)
                .filter(|&h| self.tally.seen(self.kinds.keep_after[h]) < LONG_KEEPS)
                .collect();
            if rare.is_empty() {
                return;
            }
            let halvings = self.random.pick(&rare);
            let times = long_times(&mut self.random);
            let most_variables = self.random.pick(&[1, 1, 2, 2, VARIABLES]);
            let mut case = model(&mut self.random, times, most_variables);
            if shape(&mut self.random, &mut case, halvings) == Shape::None {
                continue;
            }
            let bytes = sheet_bytes(&case.sheet);
            let question = Question {
                allowance: 1_000_000,
                span: CommandRange::one(case.command),
                measured: case.measured,
            };
            self.decision(&case.sheet, &bytes, &question);
        }
    }

    fn slow(&mut self) {
        for _ in 0..SLOW_SHEETS {
            let case = slow_growth(&mut self.random);
            let bytes = sheet_bytes(&case.sheet);
            self.decisions_around(&case, &bytes, 1);
        }
    }

    /// Sheets whose changes lie at their caps, next to them or around zero.
    fn aimed(&mut self) {
        for _ in 0..AIMED_SHEETS {
            let case = aimed(&mut self.random);
            let bytes = sheet_bytes(&case.sheet);
            self.sheet_calls(&case, &bytes);
            self.decisions_around(&case, &bytes, 1);
            self.recovery_check(&case.sheet, &bytes);
        }
    }

    fn worst(&mut self) {
        let case = worst_case();
        let bytes = sheet_bytes(&case.sheet);
        self.decisions_around(&case, &bytes, 0);
        for kind in [Kind::Fixed, Kind::Following] {
            let case = worst_case_of(kind);
            let (bytes, n) = (sheet_bytes(&case.sheet), case.sheet.n());
            let question = question_bytes(1_000_000, case.command, &case.measured, n);
            let answer = self.call_decide(&[self.kinds.many_rounds], &bytes, &question);
            assert!(answer.rounds() > 280_000, "{answer:?}");
        }
    }

    /// One of the calls that take a sheet, all else being in range.
    fn any_sheet_call(&mut self, kinds: &[KindId], case: &Case, bytes: &[u8]) -> Answer {
        match self.random.below(5) {
            0 => self.call_sheet(kinds, bytes),
            1 => self.call_recovery(kinds, bytes),
            2 => self.call_decide(kinds, bytes, &plain_question(case)),
            3 => self.call_read(kinds, bytes),
            _ => {
                let n = case.sheet.n();
                let call = ReachCall {
                    law: self.random.below(2) as u32,
                    ..plain_reach(case)
                };
                let start = expected::pairs(&case.measured, n);
                self.call_reach(kinds, bytes, call, &start, reach_length(n))
            }
        }
    }

    /// The archives' arrays have as many numbers as the header says.
    fn sizes(&mut self) {
        for numbers in [archive::numbers(), sheet_archive::numbers()] {
            let right = numbers == NUMBERS as u64;
            self.tally
                .check(self.kinds.sizes, right, || format!("{numbers} numbers"));
        }
    }

    /// Values at their bounds, which are still accepted.
    fn bounds(&mut self) {
        for (name, put) in BOUNDS {
            let kind = self.tally.kind(format!("bound: {name}"), 200);
            for _ in 0..PAIRS {
                let times = times(&mut self.random, 12);
                let mut case = model(&mut self.random, times, VARIABLES);
                shape(&mut self.random, &mut case, 0);
                put(&mut self.random, &mut case.sheet);
                let (sheet, n) = (&case.sheet, case.sheet.n());
                let bytes = sheet_bytes(sheet);
                let command = pick_command(&mut self.random, sheet);
                self.call_sheet(&[kind], &bytes);
                self.call_read(&[], &bytes);
                self.call_write(&[], &sheet.numbers(), bytes.len(), 0);
                self.call_recovery(&[], &bytes);
                let question = question_bytes(300, command, &case.measured, n);
                self.call_decide(&[], &bytes, &question);
                let call = ReachCall {
                    command,
                    ..plain_reach(&case)
                };
                let start = expected::pairs(&case.measured, n);
                self.call_reach(&[], &bytes, call, &start, reach_length(n));
            }
        }
        // Questions and reaches at their bounds; boxes that reach the ends of all bands.
        let ends = [
            self.tally.kind("bound: allowance 1,000,000", 200),
            self.tally
                .kind("bound: measured sides -1,000,000 and 1,000,000", 200),
            self.tally.kind("bound: reach of 1,000 ticks", 200),
            self.tally.kind("bound: width 1,000", 200),
        ];
        for _ in 0..PAIRS {
            let times = times(&mut self.random, 12);
            let mut case = model(&mut self.random, times, VARIABLES);
            shape(&mut self.random, &mut case, 0);
            let n = case.sheet.n();
            let bytes = sheet_bytes(&case.sheet);
            let question = question_bytes(1_000_000, case.command, &case.measured, n);
            self.call_decide(&[ends[0]], &bytes, &question);
            for i in 0..n {
                let far = [(-1_000_000, 1_000_000), (1_000_000, 1_000_000)];
                let near = [(-1_000_000, -1_000_000), (-1_000_000, 0)];
                let sides = [far, near].concat();
                let (lower, upper) = self.random.pick(&sides);
                case.measured.lower[i] = lower;
                case.measured.upper[i] = upper;
            }
            let question = question_bytes(1_000_000, case.command, &case.measured, n);
            self.call_decide(&[ends[1]], &bytes, &question);
            let start = expected::pairs(&case.measured, n);
            let mut call = plain_reach(&case);
            call.ticks = 1_000;
            call.width = self.random.spread(1, 1_000) as u32;
            self.call_reach(&[ends[2]], &bytes, call, &start, reach_length(n));
            call.ticks = self.random.below(1_001) as u32;
            call.width = 1_000;
            self.call_reach(&[ends[3]], &bytes, call, &start, reach_length(n));
        }
    }

    /// Bytes changed at random, whatever comes of it.
    fn damaged(&mut self) {
        for _ in 0..DAMAGED {
            let times = times(&mut self.random, 12);
            let mut case = model(&mut self.random, times, VARIABLES);
            shape(&mut self.random, &mut case, 0);
            let sound = sheet_bytes(&case.sheet);
            let mut bytes = sound.clone();
            damage(&mut self.random, &mut bytes);
            self.any_sheet_call(&[self.kinds.damaged_sheets], &case, &bytes);
            let mut question = plain_question(&case);
            damage(&mut self.random, &mut question);
            self.call_decide(&[self.kinds.damaged_questions], &sound, &question);
            let mut numbers = case.sheet.numbers();
            damage_number(&mut self.random, &mut numbers);
            let room = LONGEST_SHEET + 3;
            self.call_write(&[self.kinds.damaged_numbers], &numbers, room, 3);
        }
    }
}

fn plain_question(case: &Case) -> Vec<u8> {
    question_bytes(500, case.command, &case.measured, case.sheet.n())
}

fn plain_reach(case: &Case) -> ReachCall {
    ReachCall {
        ticks: 6,
        width: 4,
        law: 1,
        command: case.command,
    }
}

/// A part of the matching and its name.
type Part = (&'static str, fn(&mut Matching));

fn main() {
    let mut matching = Matching::new();
    let parts: [Part; 27] = [
        ("numbers", Matching::sizes),
        ("values at their bounds", Matching::bounds),
        ("pairs of faults", Matching::faults),
        ("damaged bytes", Matching::damaged),
        ("everyday sheets", Matching::everyday),
        ("slow growth", Matching::slow),
        ("many rounds", Matching::worst),
        ("long times", Matching::long),
        ("changes at their caps", Matching::aimed),
        ("unsafe boxes in order and out of it", Matching::order),
        ("the same boxes in another order", Matching::other_orders),
        ("recovery boxes on unsafe boxes", Matching::overlap),
        ("spans of commands", Matching::spans),
        ("spans that are refused", Matching::wrong_spans),
        ("pairs of faults with a span", Matching::span_faults),
        ("laws that follow the state", Matching::laws),
        ("machines drawn to a center", Matching::drawn),
        ("laws aimed at their ends", Matching::aimed_laws),
        ("law numbers", Matching::law_numbers),
        ("marks and lengths of both kinds", Matching::marks),
        ("values of both kinds", Matching::values_of_kinds),
        ("pairs of faults with laws", Matching::law_faults),
        ("readings that come to a box", Matching::readings),
        ("readings of any floats", Matching::any_readings),
        ("readings that are refused", Matching::wrong_readings),
        ("pairs of faults with readings", Matching::reading_faults),
        ("slices of readings", Matching::reading_slices),
    ];
    for (name, part) in parts {
        let start = Instant::now();
        part(&mut matching);
        println!("{name}: {:.1} s", start.elapsed().as_secs_f64());
    }
    std::process::exit(matching.tally.finish());
}
