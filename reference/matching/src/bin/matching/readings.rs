//! Decisions on the drive's readings (document 02, paper 1): readings that come to a wanted box beside
//! the question with that box and beside what guards that round otherwise would answer, readings of any
//! floats, readings refused for each reason at each variable, faults beside others, and slices of every
//! length. Each part has a seed of its own and kinds of its own, so that the other parts see what they
//! saw without it.

use super::faults::{Cases, Cause, OF_BYTES};
use super::{show, Matching, PAIRS};
use matching::archive::{self, Answer};
use matching::expected;
use matching::generate::{everyday, everyday_of, near, pick_command, sheet_bytes, Case};
use matching::laws::followed;
use matching::random::Random;
use matching::readings::{
    any_float, any_reading, bits_text, head_bytes, point_at_limit, readings_for, Report, Sort,
    Wrong, REFUSALS, ROUNDINGS, SORTS, WRONGS,
};
use matching::spans::{any_span, spanned};
use matching::spoil::{question_fault, span_fault, Fault};
use matching::tally::{hex, KindId, Tally};
use second_guard::boxes::{StateBox, VARIABLES};
use second_guard::decision::{decide_watched, Decision, Faults, Question};
use second_guard::reach::NoWatch;
use second_guard::readings::{measured_box, readings_of, Reading};
use second_guard::sheet::{self, CommandRange, Kind, Refusal, Sheet, START_LIMIT};

/// The seed of each part.
const SEEDS: [u64; 5] = [101, 102, 103, 104, 105];
/// How many sheets have readings that come to a wanted box, and readings of any floats.
const AIMED_SHEETS: usize = 9_000;
const ANY_SHEETS: usize = 5_000;
/// How many sheets the faults are put into, and how many have slices of every length and every kind.
const FAULTY_SHEETS: usize = 420;
const SLICED_SHEETS: usize = 120;
const KINDS_SHEETS: usize = 24;
/// The longest head that is tried.
const LONGEST_HEAD: usize = 72;

const MARKS: [&[u8; 2]; 2] = [b"QS", b"QR"];
const CODES: [&str; 4] = ["keep", "finest", "spent", "refused"];
/// The sorts of floats that readings which are not refused can have.
const IN_RANGE: usize = 10;
/// The refusals of a call on a sheet, in their order; 18 and 19 are one test.
const OF_CALL: [u8; 6] = [12, 13, 14, 18, 19, 15];

/// Two refusals of readings: the first, and the second at a later variable, or at an earlier one.
const AT_TWO_VARIABLES: [(u8, u8, bool); 8] = [
    (18, 19, true),
    (19, 18, true),
    (18, 18, true),
    (19, 19, true),
    (18, 15, true),
    (18, 15, false),
    (19, 15, true),
    (19, 15, false),
];

pub(super) struct Kinds {
    calls: KindId,
    /// By mark and code; of another mark there are only refusals.
    by_mark: [[KindId; CODES.len()]; MARKS.len()],
    other_mark: KindId,
    refusals: [KindId; REFUSALS.len()],
    /// The same answer as the question with the box, by code.
    as_question: [KindId; CODES.len()],
    wanted_box: KindId,
    points: KindId,
    pairs: KindId,
    /// Values and sides, and tolerances, of readings that are not refused.
    sorts: [[KindId; IN_RANGE]; 2],
    /// A lower side, an upper side and a tolerance that are not whole.
    moved: [KindId; 3],
    other_box: [KindId; ROUNDINGS.len()],
    other_answer: [KindId; ROUNDINGS.len()],
    one_less: KindId,
    exactly_enough: KindId,
    wrong: [[KindId; VARIABLES]; WRONGS.len()],
    at_limit: [KindId; VARIABLES],
    slices: SliceKinds,
}

/// Slices that end early or have more than n readings, kinds that are none, and heads.
struct SliceKinds {
    kinds_end: KindId,
    values_end: KindId,
    beyond_n: KindId,
    other_kinds: KindId,
    heads: KindId,
}

impl SliceKinds {
    fn new(tally: &mut Tally) -> SliceKinds {
        SliceKinds {
            kinds_end: kind(tally, "kinds that end early: refused by 18", 3_000),
            values_end: kind(tally, "values that end early: refused by 18", 3_000),
            beyond_n: kind(tally, "kinds and values beyond n are not looked at", 3_000),
            other_kinds: kind(tally, "a kind of 0 or from 3 to 255: refused by 18", 20_000),
            heads: kind(tally, "heads of another length: refused by 12", 8_000),
        }
    }
}

/// The kind of this name.
fn kind(tally: &mut Tally, name: &str, least: u64) -> KindId {
    tally.kind(format!("readings: {name}"), least)
}

/// The kinds of a reason at each variable.
fn wrong_kinds(tally: &mut Tally, wrong: Wrong) -> [KindId; VARIABLES] {
    let (text, number) = (wrong.text(), wrong.number());
    std::array::from_fn(|i| {
        let name = format!("variable {}, {text}: refused by {number}", i + 1);
        kind(tally, &name, 200)
    })
}

/// The kinds of floats in a place of a reading.
fn sort_kinds(tally: &mut Tally, what: &str, least: u64) -> [KindId; IN_RANGE] {
    std::array::from_fn(|place| {
        let name = format!("a {what} {}", SORTS[place].text());
        kind(tally, &name, least)
    })
}

impl Kinds {
    pub(super) fn new(tally: &mut Tally) -> Kinds {
        Kinds {
            calls: kind(tally, "calls", 160_000),
            by_mark: ["QS", "QR"]
                .map(|mark| CODES.map(|code| kind(tally, &format!("{mark}: {code}"), 8_000))),
            other_mark: kind(tally, "another mark: refused", 1_000),
            refusals: REFUSALS.map(|of| kind(tally, &format!("refused by {of}"), 500)),
            as_question: CODES.map(|code| {
                let name = format!("as by the box's pairs: {code}");
                kind(tally, &name, 8_000)
            }),
            wanted_box: kind(tally, "they come to the wanted box", 50_000),
            points: kind(tally, "points", 80_000),
            pairs: kind(tally, "pairs", 50_000),
            sorts: ["value or side", "tolerance"].map(|what| sort_kinds(tally, what, 200)),
            moved: ["a lower side", "an upper side", "a tolerance"]
                .map(|what| kind(tally, &format!("{what} that rounding moved"), 40_000)),
            other_box: ROUNDINGS.map(|rule| {
                let name = format!("another box by {}", rule.text());
                kind(tally, &name, 10_000)
            }),
            other_answer: ROUNDINGS.map(|rule| {
                let name = format!("another answer by {}", rule.text());
                kind(tally, &name, 1_500)
            }),
            one_less: kind(tally, "allowance one less than needed", 8_000),
            exactly_enough: kind(tally, "allowance exactly enough", 8_000),
            wrong: WRONGS.map(|wrong| wrong_kinds(tally, wrong)),
            at_limit: std::array::from_fn(|i| {
                let name = format!("variable {}, a side just at its limit", i + 1);
                kind(tally, &name, 200)
            }),
            slices: SliceKinds::new(tally),
        }
    }

    /// The kinds of a reading that is not refused.
    fn of_reading(&self, reading: Reading) -> Vec<KindId> {
        let is_moved = |x: f32| x.fract() != 0.0;
        let sort = |what: usize, x: f32| self.sorts[what].get(Sort::of(x).place()).copied();
        let (of, floats, moved) = match reading {
            Reading::Point { value, tolerance } => (
                self.points,
                [sort(0, value), sort(1, tolerance)],
                [is_moved(value), is_moved(value), is_moved(tolerance)],
            ),
            Reading::Pair { lower, upper } => (
                self.pairs,
                [sort(0, lower), sort(0, upper)],
                [is_moved(lower), is_moved(upper), false],
            ),
            Reading::Missing => unreachable!("a reading that is not refused"),
        };
        let moved = moved.iter().zip(self.moved);
        let moved = moved.filter_map(|(&moved, kind)| moved.then_some(kind));
        let floats = floats.into_iter().flatten();
        [of].into_iter().chain(floats).chain(moved).collect()
    }
}

/// A call by readings.
struct Call<'a> {
    sheet: &'a [u8],
    head: &'a [u8],
    report: &'a Report,
}

impl Call<'_> {
    fn wanted(&self) -> Answer {
        let Report { kinds, values } = self.report;
        expected::decide_readings(self.sheet, self.head, kinds, values)
    }

    fn found(&self) -> Answer {
        let Report { kinds, values } = self.report;
        archive::decide_readings(self.sheet, self.head, kinds, values)
    }

    /// What `guard_decide` answers to the head and the box's pairs, where sheet and readings have one.
    fn by_pairs(&self) -> Option<Answer> {
        let n = sheet::read(self.sheet).ok()?.n();
        let readings = readings_of(n, &self.report.kinds, &self.report.values);
        let mut question = self.head.to_vec();
        for (lower, upper) in measured_box(&readings).ok()? {
            question.extend((lower as i32).to_be_bytes());
            question.extend((upper as i32).to_be_bytes());
        }
        Some(archive::decide(self.sheet, &question))
    }

    fn text(&self) -> String {
        let Report { kinds, values } = self.report;
        let (sheet, head, kinds) = (hex(self.sheet), hex(self.head), hex(kinds));
        format!("{sheet} {head} {kinds} {}", bits_text(values))
    }
}

/// The decision where the box is another one.
fn decided_on(sheet: &Sheet, question: &Question, measured: StateBox) -> Decision {
    if !measured.ordered_within(sheet.n(), START_LIMIT) {
        return Decision::Refused(Refusal::Start);
    }
    let question = Question {
        measured,
        ..*question
    };
    decide_watched(sheet, &question, Faults::default(), &mut NoWatch)
}

/// The box of readings that are not refused.
fn box_of(readings: &[Reading]) -> StateBox {
    let mut sides = StateBox::default();
    let measured = measured_box(readings).expect("readings that are not refused");
    for (i, pair) in measured.into_iter().enumerate() {
        (sides.lower[i], sides.upper[i]) = pair;
    }
    sides
}

/// A fault for this refusal (12 to 14) in the bytes before a question's pairs.
fn head_fault(random: &mut Random, sheet: &Sheet, mark: &[u8; 2], number: u8) -> Fault {
    match mark {
        b"QS" => question_fault(random, sheet, number),
        _ => span_fault(random, sheet, number),
    }
}

/// A reason for this refusal (15, 18, 19). Without `cut` the slices keep their lengths.
fn any_wrong(random: &mut Random, number: u8, cut: bool) -> Wrong {
    loop {
        let wrong = random.pick(&WRONGS);
        let cuts = matches!(wrong, Wrong::KindsEnd | Wrong::ValuesEnd);
        if wrong.number() == number && (cut || !cuts) {
            return wrong;
        }
    }
}

/// Sheets of every number of variables and of both kinds.
fn cases(random: &mut Random) -> Vec<Case> {
    (0..FAULTY_SHEETS)
        .map(|turn| {
            let kind = [Kind::Fixed, Kind::Following][turn % 2];
            everyday_of(random, 1 + turn / 2 % VARIABLES, kind).case
        })
        .collect()
}

impl Matching {
    /// Compares the answers and counts them.
    fn call_readings(&mut self, kinds: &[KindId], call: Call) -> Answer {
        let (wanted, found) = (call.wanted(), call.found());
        let by_pairs = call.by_pairs();
        let right = wanted == found && by_pairs.is_none_or(|answer| answer == found);
        let of = &self.kinds.readings;
        let code = wanted.code() as usize;
        let mut seen = kinds.to_vec();
        seen.push(match call.head.get(..2) {
            Some(b"QS") => of.by_mark[0][code],
            Some(b"QR") => of.by_mark[1][code],
            _ => of.other_mark,
        });
        seen.extend(by_pairs.map(|_| of.as_question[code]));
        if let Some(number) = wanted.refusal() {
            let place = REFUSALS.iter().position(|&refusal| refusal == number);
            seen.push(of.refusals[place.expect("a refusal of readings")]);
        }
        for kind in seen {
            self.tally.saw(kind);
            if !right {
                self.tally.mark_wrong(kind);
            }
        }
        self.tally.check(self.kinds.readings.calls, right, || {
            let (text, by_pairs) = (call.text(), by_pairs.map(show));
            let (wanted, found) = (show(wanted), show(found));
            format!("{text}: wanted {wanted}, found {found}, by the pairs {by_pairs:?}")
        });
        wanted
    }

    /// Any head of the sheet and readings near a case's box; neither is refused.
    fn sound_call(&mut self, case: &Case) -> (&'static [u8; 2], Vec<u8>, Report) {
        let mark = self.random.pick(&MARKS);
        let span = self.span_of(mark, &case.sheet);
        let allowance = self.random.spread(1, 300) as u32;
        let measured = near(&mut self.random, case);
        let readings = readings_for(&mut self.random, &measured, case.sheet.n());
        let report = Report::of(&mut self.random, &readings);
        (mark, head_bytes(mark, allowance, span), report)
    }

    /// Any command or span that a head of this mark can have.
    fn span_of(&mut self, mark: &[u8; 2], sheet: &Sheet) -> CommandRange {
        match mark {
            b"QS" => CommandRange::one(pick_command(&mut self.random, sheet)),
            _ => any_span(&mut self.random, sheet),
        }
    }

    /// Readings that come to the box for which a sheet's boxes are placed, and to others near it.
    pub(super) fn readings(&mut self) {
        self.random = Random::new(SEEDS[0]);
        for turn in 0..AIMED_SHEETS {
            let mark = MARKS[turn % 2];
            let (case, span) = match mark {
                b"QS" => {
                    let case = everyday(&mut self.random).case;
                    (case, CommandRange::one(case.command))
                }
                _ => spanned(&mut self.random),
            };
            let bytes = sheet_bytes(&case.sheet);
            self.readings_around(mark, &case, &bytes, span);
            for _ in 0..3 {
                let question = Question {
                    allowance: self.random.spread(1, 1_000_000) as u32,
                    span: self.span_of(mark, &case.sheet),
                    measured: near(&mut self.random, &case),
                };
                self.readings_decision(mark, &case.sheet, &bytes, &question);
            }
        }
    }

    /// The decision with all rounds that it needs, and with the allowances around them.
    fn readings_around(&mut self, mark: &[u8; 2], case: &Case, bytes: &[u8], span: CommandRange) {
        let mut question = Question {
            allowance: 1_000_000,
            span,
            measured: case.measured,
        };
        let sheet = &case.sheet;
        let answer = self.readings_decision(mark, sheet, bytes, &question);
        question.allowance = answer.rounds();
        let right = self.readings_decision(mark, sheet, bytes, &question) == answer;
        let kind = self.kinds.readings.exactly_enough;
        self.tally.check(kind, right, || "not the same".into());
        question.allowance = answer.rounds() - 1;
        let less = self.readings_decision(mark, sheet, bytes, &question);
        let right = less.code() == 2 && less.rounds() == question.allowance;
        let kind = self.kinds.readings.one_less;
        self.tally.check(kind, right, || "not spent".into());
    }

    /// A question that is not refused, asked by readings that come to its box.
    fn readings_decision(
        &mut self,
        mark: &[u8; 2],
        sheet: &Sheet,
        bytes: &[u8],
        question: &Question,
    ) -> Answer {
        let readings = readings_for(&mut self.random, &question.measured, sheet.n());
        let report = Report::of(&mut self.random, &readings);
        let come_to = box_of(&readings);
        let kind = self.kinds.readings.wanted_box;
        self.tally.check(kind, come_to == question.measured, || {
            format!("{:?} not {:?}: {readings:?}", come_to, question.measured)
        });
        let head = head_bytes(mark, question.allowance, question.span);
        let seen = self.kinds_of_readings(&readings);
        let call = Call {
            sheet: bytes,
            head: &head,
            report: &report,
        };
        let answer = self.call_readings(&seen, call);
        self.by_other_rules(sheet, question, &readings, answer);
        answer
    }

    fn kinds_of_readings(&self, readings: &[Reading]) -> Vec<KindId> {
        let kinds = &self.kinds.readings;
        let of = |&reading: &Reading| kinds.of_reading(reading);
        readings.iter().flat_map(of).collect()
    }

    /// Counts the rules by which a guard would come to another box, and to another answer.
    fn by_other_rules(
        &mut self,
        sheet: &Sheet,
        question: &Question,
        readings: &[Reading],
        answer: Answer,
    ) {
        for (place, rule) in ROUNDINGS.into_iter().enumerate() {
            let measured = rule.measured(readings);
            if measured == question.measured {
                continue;
            }
            self.tally.saw(self.kinds.readings.other_box[place]);
            if Answer(decided_on(sheet, question, measured).pack()) != answer {
                self.tally.saw(self.kinds.readings.other_answer[place]);
            }
        }
    }

    /// Readings of any floats, of which many are refused.
    pub(super) fn any_readings(&mut self) {
        self.random = Random::new(SEEDS[1]);
        for _ in 0..ANY_SHEETS {
            let case = everyday(&mut self.random).case;
            let bytes = sheet_bytes(&case.sheet);
            for _ in 0..4 {
                let (_, head, _) = self.sound_call(&case);
                let sound = near(&mut self.random, &case);
                let mut readings = readings_for(&mut self.random, &sound, case.sheet.n());
                let some = self.random.pick(&[0, 20, 60, 100]);
                for reading in &mut readings {
                    if self.random.percent(some) {
                        *reading = any_reading(&mut self.random);
                    }
                }
                let seen = match measured_box(&readings) {
                    Ok(_) => self.kinds_of_readings(&readings),
                    Err(_) => Vec::new(),
                };
                let report = Report::of(&mut self.random, &readings);
                let call = Call {
                    sheet: &bytes,
                    head: &head,
                    report: &report,
                };
                self.call_readings(&seen, call);
            }
        }
    }

    /// Each reason for a refusal at each variable, and sides that a tolerance brings just to the limit.
    pub(super) fn wrong_readings(&mut self) {
        self.random = Random::new(SEEDS[2]);
        let cases = cases(&mut self.random);
        for i in 0..VARIABLES {
            for (place, wrong) in WRONGS.into_iter().enumerate() {
                let kind = self.kinds.readings.wrong[place][i];
                for _ in 0..PAIRS {
                    let case = self.case_of(&cases, i + 1);
                    let (_, head, mut report) = self.sound_call(&case);
                    wrong.put(&mut self.random, &mut report, i);
                    let answer = self.call_faulty(kind, &case, &head, &report);
                    assert_eq!(answer.refusal(), Some(wrong.number()), "{wrong:?}");
                }
            }
            for turn in 0..PAIRS {
                let case = self.case_of(&cases, i + 1);
                let (_, head, mut report) = self.sound_call(&case);
                let sign = [-1.0, 1.0][turn as usize % 2];
                let at_limit = point_at_limit(&mut self.random, sign);
                let only = Report::of(&mut self.random, &[at_limit]);
                report.kinds[i] = only.kinds[0];
                report.values[2 * i..2 * i + 2].copy_from_slice(&only.values);
                let kind = self.kinds.readings.at_limit[i];
                let answer = self.call_faulty(kind, &case, &head, &report);
                assert_eq!(answer.refusal(), None, "{at_limit:?}");
            }
        }
    }

    /// One of the cases with at least so many variables.
    fn case_of(&mut self, cases: &[Case], least: usize) -> Case {
        loop {
            let case = cases[self.random.below(cases.len())];
            if case.sheet.n() >= least {
                return case;
            }
        }
    }

    fn call_faulty(&mut self, kind: KindId, case: &Case, head: &[u8], report: &Report) -> Answer {
        let sheet = &sheet_bytes(&case.sheet);
        let call = Call {
            sheet,
            head,
            report,
        };
        self.call_readings(&[kind], call)
    }

    /// Every ordered pair of causes that a call by readings can have.
    pub(super) fn reading_faults(&mut self) {
        self.random = Random::new(SEEDS[3]);
        let all = cases(&mut self.random);
        self.reading_pairs(&all);
        self.pairs_at_two_variables(&all);
        let cases = Cases { of: "", all };
        for first in OF_BYTES.map(Cause::Any) {
            self.sheet_and_readings(&cases, first);
        }
        let cases = Cases {
            of: "BF ",
            all: (0..200).map(|_| followed(&mut self.random)).collect(),
        };
        self.sheet_and_readings(&cases, Cause::Law);
    }

    /// Puts a fault of this number into a head and its readings.
    fn spoil_readings(&mut self, sheet: &Sheet, call: &mut (&[u8; 2], Vec<u8>, Report), of: u8) {
        let (mark, head, report) = call;
        if of <= 14 {
            head_fault(&mut self.random, sheet, mark, of).apply(head);
        } else {
            let i = self.random.below(sheet.n());
            let wrong = any_wrong(&mut self.random, of, true);
            wrong.put(&mut self.random, report, i);
        }
    }

    /// Two faults of one call, the first of them in its head.
    fn reading_pairs(&mut self, cases: &[Case]) {
        for (place, first) in OF_CALL.into_iter().enumerate().take(3) {
            for &second in &OF_CALL[place + 1..] {
                let kind = self.pair("readings", &first.to_string(), &second.to_string());
                for _ in 0..PAIRS {
                    let case = self.case_of(cases, 1);
                    let mut call = self.sound_call(&case);
                    // The head's length goes last, so that the other places stay.
                    self.spoil_readings(&case.sheet, &mut call, second);
                    self.spoil_readings(&case.sheet, &mut call, first);
                    let answer = self.call_faulty(kind, &case, &call.1, &call.2);
                    assert_eq!(answer.refusal(), Some(first));
                }
            }
        }
    }

    /// Two faults of readings at two variables. A slice ends at the later one at most.
    fn pairs_at_two_variables(&mut self, cases: &[Case]) {
        for (first, second, later) in AT_TWO_VARIABLES {
            let at = ["an earlier", "a later"][usize::from(later)];
            let text = format!("{second} at {at} variable");
            let kind = self.pair("readings", &first.to_string(), &text);
            let (earlier_one, later_one) = if later {
                (first, second)
            } else {
                (second, first)
            };
            for _ in 0..PAIRS {
                let case = self.case_of(cases, 2);
                let (_, head, mut report) = self.sound_call(&case);
                let j = 1 + self.random.below(case.sheet.n() - 1);
                let i = self.random.below(j);
                let wrong = any_wrong(&mut self.random, earlier_one, false);
                wrong.put(&mut self.random, &mut report, i);
                let wrong = any_wrong(&mut self.random, later_one, true);
                wrong.put(&mut self.random, &mut report, j);
                let answer = self.call_faulty(kind, &case, &head, &report);
                assert_eq!(answer.refusal(), Some(first));
            }
        }
    }

    /// A fault of the sheet beside each one of the call.
    fn sheet_and_readings(&mut self, cases: &Cases, first: Cause) {
        for second in OF_CALL {
            let kind = self.pair_of("sheet and readings", cases, first, &second.to_string());
            for _ in 0..PAIRS {
                let (case, bytes) = self.faulty_sheet(cases, first);
                let mut call = self.sound_call(&case);
                self.spoil_readings(&case.sheet, &mut call, second);
                let call = Call {
                    sheet: &bytes,
                    head: &call.1,
                    report: &call.2,
                };
                let answer = self.call_readings(&[kind], call);
                assert_eq!(answer.refusal(), Some(first.number()));
            }
        }
    }

    /// Slices of every length, every kind that is none, and heads of every length.
    pub(super) fn reading_slices(&mut self) {
        self.random = Random::new(SEEDS[4]);
        let cases = cases(&mut self.random);
        for case in &cases[..SLICED_SHEETS] {
            self.every_length(case);
        }
        for case in &cases[..KINDS_SHEETS] {
            self.every_kind(case);
        }
        for case in &cases[..SLICED_SHEETS] {
            self.every_head(case);
        }
    }

    fn every_length(&mut self, case: &Case) {
        let n = case.sheet.n();
        let (_, head, mut report) = self.sound_call(case);
        let kind = self.kinds.readings.slices.beyond_n;
        let sound = self.call_faulty(kind, case, &head, &report);
        for _ in 0..3 {
            report.kinds.push(self.random.bits() as u8);
            let floats = [any_float(&mut self.random), any_float(&mut self.random)];
            report.values.extend(floats);
        }
        for kinds in 0..=report.kinds.len() {
            for values in 0..=report.values.len() {
                let part = Report {
                    kinds: report.kinds[..kinds].to_vec(),
                    values: report.values[..values].to_vec(),
                };
                let of = &self.kinds.readings.slices;
                let (kind, wanted) = match (kinds < n, values < 2 * n) {
                    (true, _) => (of.kinds_end, Some(18)),
                    (_, true) => (of.values_end, Some(18)),
                    _ => (of.beyond_n, None),
                };
                let answer = self.call_faulty(kind, case, &head, &part);
                assert_eq!(answer.refusal(), wanted);
                assert!(wanted.is_some() || answer == sound, "{kinds} {values}");
            }
        }
    }

    fn every_kind(&mut self, case: &Case) {
        let (_, head, report) = self.sound_call(case);
        for i in 0..case.sheet.n() {
            for other in (0..=255).filter(|other| ![1, 2].contains(other)) {
                let mut report = report.clone();
                report.kinds[i] = other;
                let kind = self.kinds.readings.slices.other_kinds;
                let answer = self.call_faulty(kind, case, &head, &report);
                assert_eq!(answer.refusal(), Some(18), "kind {other}");
            }
        }
    }

    fn every_head(&mut self, case: &Case) {
        let (_, head, report) = self.sound_call(case);
        let mut longest = head.clone();
        longest.extend(expected::pairs(&case.measured, case.sheet.n()));
        let from = longest.len();
        longest.resize(LONGEST_HEAD, 0);
        self.random.fill(&mut longest[from..]);
        for length in (0..=LONGEST_HEAD).filter(|&length| length != head.len()) {
            let kind = self.kinds.readings.slices.heads;
            let answer = self.call_faulty(kind, case, &longest[..length], &report);
            assert_eq!(answer.refusal(), Some(12), "length {length}");
        }
    }
}
