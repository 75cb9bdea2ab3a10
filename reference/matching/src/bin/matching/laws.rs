//! Sheets of up to six variables whose plain law follows the state (document 02, paper 9): answers by
//! kind and number of variables, laws of every sort beside what guards with another rule would answer,
//! law numbers at their ends and past them, marks and lengths of both kinds, and values of both.

use super::Matching;
use matching::archive::format::{
    reach_length, slot_law, BANDS, LAW_CONSTANT, LAW_DIVISOR, LAW_SIZE, LONGEST_SHEET, NUMBERS,
    VARIABLES,
};
use matching::archive::{self, Answer, ReachCall};
use matching::expected;
use matching::generate::{band_record, bytes_of, everyday_of, question_near, sheet_bytes, Case};
use matching::laws::{aimed_laws, followed, LawNumber, LawSight, CLAMPED, OTHER_GUARDS, SUMS_AT};
use matching::machines::any_question;
use matching::random::Random;
use matching::scenes::drawn;
use matching::spans::any_span;
use matching::spoil::{BAND_HEAD, WRONG_MARKS};
use matching::tally::{KindId, Tally};
use second_guard::boxes::StateBox;
use second_guard::decision::{check_recovery_watched, decide_watched, Faults, Question};
use second_guard::sheet::{self, CommandRange, Kind, Sheet};

/// How many sheets with laws, how many whose laws are aimed at their ends, and how many machines that are
/// drawn to a center, of each kind and number of variables.
const LAW_SHEETS: usize = 10_000;
const AIMED_SHEETS: usize = 12_000;
const DRAWN_SHEETS: usize = 1_000;
/// Questions near the one that a sheet's boxes are placed for.
const NEAR: usize = 4;
/// How many sheets have wrong law numbers, marks and lengths, and values of both kinds.
const WRONG_SHEETS: usize = 600;

/// Calls that are counted by the sheet's kind and number of variables.
#[derive(Clone, Copy, PartialEq)]
pub(super) enum Call {
    Decide,
    Recovery,
    Read,
    Write,
    PlainReach,
}

/// What comes of each.
const RESULTS: [(Call, &[&str]); 5] = [
    (
        Call::Decide,
        &["keep", "finest", "spent", "decision refused"],
    ),
    (
        Call::Recovery,
        &["check passes", "check fails", "check refused"],
    ),
    (Call::Read, &["read", "reading refused"]),
    (Call::Write, &["written", "writing refused"]),
    (Call::PlainReach, &["plain reach", "plain reach refused"]),
];

impl Call {
    /// The place of an answer among the results.
    fn result(self, answer: Answer) -> usize {
        let refused = usize::from(answer.refusal().is_some());
        match self {
            Call::Decide => answer.code() as usize,
            Call::Recovery if refused == 1 => 2,
            Call::Recovery => answer.code() as usize,
            _ => refused,
        }
    }
}

/// The kinds and numbers of variables that are counted, and how often each result has to be seen.
const GROUPS: [(Kind, Option<usize>, u64); 5] = [
    (Kind::Following, None, 2_000),
    (Kind::Following, Some(5), 500),
    (Kind::Following, Some(6), 500),
    (Kind::Fixed, Some(5), 300),
    (Kind::Fixed, Some(6), 300),
];

/// What a law's number is set to, and whether that is accepted.
const VALUES: [(&str, bool); 6] = [
    ("just below its least", false),
    ("at its least", true),
    ("at its greatest", true),
    ("just above its greatest", false),
    ("the lowest there is", false),
    ("the highest there is", false),
];

/// Values in which some law numbers do not count, and of which kind they were before.
const UNCOUNTED: [(&str, Kind); 4] = [
    (
        "BF values, then the first divisor 0 and any laws: written as BD",
        Kind::Following,
    ),
    ("BD values with any laws: written as BD", Kind::Fixed),
    (
        "BF values with any coefficients beyond n: written as BF",
        Kind::Following,
    ),
    (
        "BF values with any laws beyond the count: written as BF",
        Kind::Following,
    ),
];

pub(super) struct Kinds {
    /// By group, call and result.
    results: Vec<Vec<Vec<KindId>>>,
    clamped: [KindId; CLAMPED.len()],
    /// A neighborhood over one band, two, and three or more.
    bands: [KindId; 3],
    sum_at: [[KindId; SUMS_AT.len()]; 2],
    other_decision: [KindId; OTHER_GUARDS.len()],
    other_check: [KindId; OTHER_GUARDS.len()],
    /// By number and value: in a file, and in values.
    numbers: [[[KindId; VALUES.len()]; 2]; LawNumber::KINDS.len()],
    first_divisor: KindId,
    wrongs: [KindId; WRONG_MARKS.len()],
    uncounted: [KindId; UNCOUNTED.len()],
    zeros: KindId,
}

fn name_of(kind: Kind, n: Option<usize>) -> String {
    let mark = String::from_utf8_lossy(kind.mark());
    n.map_or(mark.to_string(), |n| format!("{mark}, n = {n}"))
}

/// The kinds of each call's results for a group.
fn results_of(tally: &mut Tally, group: &str, least: u64) -> Vec<Vec<KindId>> {
    let mut of_call = |results: &[&str]| {
        let name = |result: &&str| tally.kind(format!("{group}: {result}"), least);
        results.iter().map(name).collect()
    };
    RESULTS.map(|(_, results)| of_call(results)).to_vec()
}

/// The kinds of a law's number, in a file and in values.
fn numbers_of(tally: &mut Tally, number: &str) -> [[KindId; VALUES.len()]; 2] {
    ["read", "write"].map(|call| {
        VALUES.map(|(value, accepted)| {
            let verdict = if accepted {
                "accepted"
            } else {
                "refused by 10"
            };
            tally.kind(format!("law {number} {value}: {call}, {verdict}"), 200)
        })
    })
}

impl Kinds {
    pub(super) fn new(tally: &mut Tally) -> Kinds {
        let results = GROUPS.map(|(kind, n, least)| results_of(tally, &name_of(kind, n), least));
        let mut other = |call: &str, least: u64| {
            OTHER_GUARDS
                .map(|guard| tally.kind(format!("BF: another {call} by {}", guard.name), least))
        };
        let (other_decision, other_check) = (other("answer", 500), other("check", 100));
        Kinds {
            results: results.to_vec(),
            other_decision,
            other_check,
            clamped: CLAMPED.map(|of| tally.kind(format!("BF: a part with {}", of.text()), 2_000)),
            bands: ["one band", "two bands", "three bands or more"]
                .map(|over| tally.kind(format!("BF: laws over {over}"), 2_000)),
            sum_at: ["least", "greatest"].map(|end| {
                SUMS_AT.map(|at| {
                    let name = format!("BF: the {end} end from the sum {}", at.text());
                    tally.kind(name, 300)
                })
            }),
            numbers: LawNumber::KINDS.map(|number| numbers_of(tally, number)),
            first_divisor: tally.kind("BF with the first divisor 0: read, refused by 10", 500),
            wrongs: WRONG_MARKS.map(|wrong| tally.kind(wrong.text(), 500)),
            uncounted: UNCOUNTED.map(|(what, _)| tally.kind(what, 400)),
            zeros: tally.kind("BD is read with all law numbers 0", 500),
        }
    }

    /// What a decision or a check saw of the laws.
    fn of_sight(&self, sight: &LawSight) -> Vec<KindId> {
        let bands = match sight.most_bands {
            0 => None,
            most => Some(self.bands[most.min(3) - 1]),
        };
        let clamped = sight.clamped.iter().zip(self.clamped);
        let seen = clamped.filter_map(|(&seen, kind)| seen.then_some(kind));
        seen.chain(bands).collect()
    }
}

/// A number beyond its greatest: the highest there is, or one whose last two bytes are in range.
fn random_beyond(random: &mut Random, number: LawNumber) -> i32 {
    let (_, greatest) = number.ends();
    let last_two_in_range = 0x0700_0000 + random.int(1, 1_000);
    random.pick(&[i32::MAX, last_two_in_range.max(greatest + 1)])
}

impl Matching {
    /// Counts an answer under its sheet's kind and number of variables.
    pub(super) fn by_kind(&mut self, of: Option<(Kind, usize)>, call: Call, answer: Answer) {
        let Some((kind, n)) = of else {
            return;
        };
        let place = RESULTS.iter().position(|&(of, _)| of == call);
        let place = place.expect("one of them");
        for (group, results) in GROUPS.iter().zip(&self.kinds.laws.results) {
            if group.0 == kind && group.1.is_none_or(|of| of == n) {
                self.tally.saw(results[place][call.result(answer)]);
            }
        }
    }

    /// Sheets with laws of every sort: all calls, and answers by other rules.
    pub(super) fn laws(&mut self) {
        for turn in 0..LAW_SHEETS {
            let case = followed(&mut self.random);
            let bytes = sheet_bytes(&case.sheet);
            self.sheet_calls(&case, &bytes);
            let mut question = Question {
                allowance: 1_000_000,
                span: CommandRange::one(case.command),
                measured: case.measured,
            };
            for turn in 0..=NEAR {
                self.law_decision(&case.sheet, &bytes, &question);
                question = question_near(&mut self.random, &case);
                if turn % 2 == 0 {
                    question.span = any_span(&mut self.random, &case.sheet);
                }
            }
            self.law_check(&case.sheet, &bytes);
            self.law_reach(&case.sheet, &bytes, &case.measured);
            if turn % 2 == 0 {
                self.passing_check(&case);
            }
        }
    }

    fn law_decision(&mut self, sheet: &Sheet, bytes: &[u8], question: &Question) -> Answer {
        let mut sight = LawSight::new(sheet);
        let decision = decide_watched(sheet, question, Faults::default(), &mut sight);
        let mut seen = self.kinds.laws.of_sight(&sight);
        for (guard, kind) in OTHER_GUARDS.iter().zip(self.kinds.laws.other_decision) {
            seen.extend(((guard.decide)(sheet, question) != decision).then_some(kind));
        }
        let (asked, answer) = (bytes_of(question, sheet.n()), Answer(decision.pack()));
        self.compare_decision(&seen, bytes, &asked, answer);
        answer
    }

    fn law_check(&mut self, sheet: &Sheet, bytes: &[u8]) -> Answer {
        let mut sight = LawSight::new(sheet);
        let check = check_recovery_watched(sheet, &mut sight);
        let mut seen = self.kinds.laws.of_sight(&sight);
        for (guard, kind) in OTHER_GUARDS.iter().zip(self.kinds.laws.other_check) {
            seen.extend(((guard.check)(sheet) != check).then_some(kind));
        }
        self.call_recovery(&seen, bytes)
    }

    /// A reach under the plain law.
    fn law_reach(&mut self, sheet: &Sheet, bytes: &[u8], start: &StateBox) {
        let n = sheet.n();
        let call = ReachCall {
            ticks: self.random.spread(1, 60) as u32,
            width: self.random.spread(1, 60) as u32,
            law: 0,
            command: 0,
        };
        self.call_reach(
            &[],
            bytes,
            call,
            &expected::pairs(start, n),
            reach_length(n),
        );
    }

    /// Machines of five and six variables that are drawn to a center, so that many pass their check.
    pub(super) fn drawn(&mut self) {
        for turn in 0..4 * DRAWN_SHEETS {
            let n = [5, 6][turn % 2];
            let kind = [Kind::Fixed, Kind::Following][turn / 2 % 2];
            let sheet = drawn(&mut self.random, n, kind).sheet;
            let bytes = sheet_bytes(&sheet);
            match kind {
                Kind::Fixed => self.call_recovery(&[], &bytes),
                Kind::Following => self.law_check(&sheet, &bytes),
            };
            for _ in 0..NEAR {
                let question = any_question(&mut self.random, &sheet);
                match kind {
                    Kind::Fixed => self.call_decide(&[], &bytes, &bytes_of(&question, n)),
                    Kind::Following => self.law_decision(&sheet, &bytes, &question),
                };
            }
        }
    }

    /// Sheets whose laws have sums just at the ends of the safety range, next to them or around zero:
    /// recovery checks and reaches from the recovery box.
    pub(super) fn aimed_laws(&mut self) {
        for _ in 0..AIMED_SHEETS {
            let case = aimed_laws(&mut self.random);
            let (sheet, bytes) = (&case.sheet, sheet_bytes(&case.sheet));
            let mut sight = LawSight::new(sheet);
            check_recovery_watched(sheet, &mut sight);
            let flags = sight.sum_at.iter().flatten();
            let kinds = self.kinds.laws.sum_at.iter().flatten();
            let seen = flags.zip(kinds).filter(|(&seen, _)| seen);
            let seen: Vec<KindId> = seen.map(|(_, &kind)| kind).collect();
            self.call_recovery(&seen, &bytes);
            self.law_reach(sheet, &bytes, &sheet.recovery);
        }
    }

    /// Each number of a law at its ends and past them, in any band.
    pub(super) fn law_numbers(&mut self) {
        for _ in 0..WRONG_SHEETS {
            let case = followed(&mut self.random);
            let coefficient = LawNumber::Coefficient(self.random.below(case.sheet.n()));
            for number in [coefficient, LawNumber::Constant, LawNumber::Divisor] {
                for place in 0..VALUES.len() {
                    let k = self.random.below(case.sheet.band_count as usize);
                    self.law_number(&case, k, number, place);
                }
            }
            self.first_divisor_0(&case);
        }
    }

    /// A number of band k's law with the value at this place among `VALUES`: in a file, and in values,
    /// where there may be more.
    fn law_number(&mut self, case: &Case, k: usize, number: LawNumber, place: usize) {
        let (sheet, n) = (&case.sheet, case.sheet.n());
        let ((least, greatest), (lowest, highest)) = (number.ends(), number.extremes());
        let value = [least - 1, least, greatest, greatest + 1, lowest, highest][place];
        let refusal = (!VALUES[place].1).then_some(10);
        let kinds = self.kinds.laws.numbers[number.kind()].map(|of| of[place]);
        let mut bytes = sheet_bytes(sheet);
        let at = band_record(sheet, k) + BAND_HEAD + number.place(n);
        let new = number.bytes(value);
        bytes[at..at + new.len()].copy_from_slice(&new);
        let answer = self.any_sheet_call(&kinds[..1], case, &bytes);
        assert_eq!(answer.refusal(), refusal, "{number:?} {value}");
        let value = match place {
            4 => i32::MIN,
            // In two bytes it would be in range.
            5 => random_beyond(&mut self.random, number),
            _ => value,
        };
        if k > 0 || number != LawNumber::Divisor || value != 0 {
            let mut numbers = sheet.numbers();
            numbers[slot_law(k) + number.slot()] = value;
            let answer = self.call_write(&kinds[1..], &numbers, LONGEST_SHEET, 0);
            assert_eq!(answer.refusal(), refusal, "{number:?} {value}");
        }
    }

    /// The first band's divisor 0, in bytes marked `BF`.
    fn first_divisor_0(&mut self, case: &Case) {
        let (sheet, mut bytes) = (&case.sheet, sheet_bytes(&case.sheet));
        let at = band_record(sheet, 0) + BAND_HEAD + LawNumber::Divisor.place(sheet.n());
        bytes[at..at + 2].fill(0);
        let kind = self.kinds.laws.first_divisor;
        let answer = self.any_sheet_call(&[kind], case, &bytes);
        assert_eq!(answer.refusal(), Some(10));
    }

    /// A sheet of two bands or more of a kind.
    fn of_bands(&mut self, kind: Kind) -> Case {
        loop {
            let n = 1 + self.random.below(VARIABLES);
            let case = everyday_of(&mut self.random, n, kind).case;
            if case.sheet.band_count > 1 {
                return case;
            }
        }
    }

    /// Marks of the bands that are not all the first one's, and lengths of the other kind.
    pub(super) fn marks(&mut self) {
        for _ in 0..WRONG_SHEETS {
            let following = self.of_bands(Kind::Following);
            let fixed = self.of_bands(Kind::Fixed);
            for (place, wrong) in WRONG_MARKS.into_iter().enumerate() {
                let case = match wrong.of {
                    Kind::Following => &following,
                    Kind::Fixed => &fixed,
                };
                let bytes = wrong.bytes(&mut self.random, &case.sheet);
                let kind = self.kinds.laws.wrongs[place];
                let answer = self.any_sheet_call(&[kind], case, &bytes);
                assert_eq!(answer.refusal(), Some(wrong.number), "{}", wrong.text());
            }
        }
    }

    /// Values in which law numbers do not count, and what is read of sheets without laws.
    pub(super) fn values_of_kinds(&mut self) {
        for _ in 0..WRONG_SHEETS {
            let following = self.of_bands(Kind::Following).sheet;
            let fixed = self.of_bands(Kind::Fixed).sheet;
            self.zeros(&fixed);
            for (place, (_, of)) in UNCOUNTED.into_iter().enumerate() {
                let sheet = match of {
                    Kind::Following => &following,
                    Kind::Fixed => &fixed,
                };
                self.uncounted(sheet, place);
            }
        }
    }

    /// Any numbers in the slots of laws that do not count, by the place among `UNCOUNTED`.
    fn uncounted(&mut self, sheet: &Sheet, place: usize) {
        let (n, bands) = (sheet.n(), sheet.band_count as usize);
        let mut numbers = sheet.numbers();
        let (laws, slots) = match place {
            0 | 1 => (0..BANDS, 0..LAW_SIZE),
            2 => (0..bands, n..LAW_CONSTANT),
            _ => (bands..BANDS, 0..LAW_SIZE),
        };
        if laws.is_empty() || slots.is_empty() {
            return;
        }
        for k in laws {
            for slot in slots.clone() {
                numbers[slot_law(k) + slot] = self.random.bits() as i32;
            }
        }
        let mut kind = Kind::Following;
        if place < 2 {
            numbers[slot_law(0) + LAW_DIVISOR] = 0;
            kind = Kind::Fixed;
        }
        let id = self.kinds.laws.uncounted[place];
        let answer = self.call_write(&[id], &numbers, LONGEST_SHEET, 0);
        let length = sheet::length(kind, n, bands, sheet.unsafe_count as usize);
        assert_eq!(answer.length(), Ok(length));
    }

    /// A sheet without laws has zeros in their slots.
    fn zeros(&mut self, sheet: &Sheet) {
        let mut numbers = [0x77; NUMBERS];
        archive::sheet_read(&sheet_bytes(sheet), &mut numbers);
        let law = |k: usize| &numbers[slot_law(k)..][..LAW_SIZE];
        let right = (0..BANDS).all(|k| law(k) == [0; LAW_SIZE]);
        let kind = self.kinds.laws.zeros;
        self.tally.check(kind, right, || format!("{numbers:?}"));
    }
}
