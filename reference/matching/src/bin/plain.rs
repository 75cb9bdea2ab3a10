//! The archive against the plain guard, which was written from document 01 and papers 1, 2, 3, 4, 8 and 9 of
//! document 02 alone: a check of the readings, on sheets and questions from fixed seeds.

use matching::aim::aimed;
use matching::archive::format::{reach_length, slot_law, LAW_DIVISOR, LONGEST_SHEET, NUMBERS};
use matching::archive::{self, Answer, ReachCall};
use matching::expected::{decide_before, pairs};
use matching::generate::{
    bytes_as_they_are, bytes_of, everyday, model, near, pick_command, question_bytes, shape,
    sheet_bytes, span_bytes, times, Case,
};
use matching::laws::{aimed_laws, followed, kind_of_bytes, LawNumber};
use matching::machines::any_question;
use matching::order::{any_not_greater, difference, shuffled, DIFFERENCES};
use matching::overlap::{any_sharing, moved_beside, with_box, Sharing, SHARINGS};
use matching::random::Random;
use matching::scenes::drawn;
use matching::spans::{any_span, spanned, wrong_span, WRONGS};
use matching::spoil::{
    can_have, damage, law_fault, question_fault, sheet_fault, span_fault, WRONG_MARKS,
};
use matching::tally::{hex, KindId, Tally};
use plain_guard::decision::{decide_values, recovery_values};
use plain_guard::reach::{step, to_box, Count};
use plain_guard::readings::measured_box;
use plain_guard::{Point, Reading};
use second_guard::boxes::{StateBox, VARIABLES};
use second_guard::sheet::{CommandRange, Kind, Sheet};

const SHEETS: usize = 20_000;
const AIMED_SHEETS: usize = 10_000;
const SHEETS_OF_BOXES: usize = 5_000;
const OVERLAP_SHEETS: usize = 1_000;
const SPANNED_SHEETS: usize = 10_000;
const LAW_SHEETS: usize = 4_000;
const AIMED_LAWS: usize = 4_000;
const DRAWN_SHEETS: usize = 400;
const READING_SHEETS: usize = 5_000;
const TICKS: i64 = 200;
const REFUSED: u64 = 3 << 48;
/// The numbers by which a decision is refused.
const REFUSED_BY: [u8; 17] = [1, 2, 3, 4, 5, 6, 7, 8, 9, 10, 11, 12, 13, 14, 15, 20, 22];

/// The kinds of calls, and of answers to a question.
struct Kinds {
    recovery: KindId,
    decide: KindId,
    keep: KindId,
    finest: KindId,
    spent: KindId,
    other_before: KindId,
    refused: [KindId; REFUSED_BY.len()],
    write: KindId,
    reach: KindId,
    damaged: KindId,
    listing: KindId,
    aimed: KindId,
    out_of_order: [KindId; DIFFERENCES.len()],
    written_out_of_order: KindId,
    other_order: KindId,
    other_check: KindId,
    on_recovery: [KindId; SHARINGS.len()],
    written_on_recovery: KindId,
    without_the_test: KindId,
    beside_recovery: KindId,
    spans: [KindId; 4],
    as_command: KindId,
    wrong_span: [KindId; WRONGS.len()],
    faulty_span: [KindId; 4],
    files: [KindId; ENDS.len()],
    laws: LawKinds,
    readings: ReadingKinds,
}

/// The sheets that are counted apart.
const GROUPS: [(Kind, Option<usize>, &str); 5] = [
    (Kind::Following, None, "BF"),
    (Kind::Following, Some(5), "BF, n = 5"),
    (Kind::Following, Some(6), "BF, n = 6"),
    (Kind::Fixed, Some(5), "BD, n = 5"),
    (Kind::Fixed, Some(6), "BD, n = 6"),
];

/// The kinds of sheets with laws, and of five and six variables.
struct LawKinds {
    /// By group and by the answer's code.
    decisions: [[KindId; CODES.len()]; GROUPS.len()],
    /// By group: passes and fails.
    checks: [[KindId; 2]; GROUPS.len()],
    reaches: KindId,
    aimed: KindId,
    bad_number: KindId,
    wrong_marks: [KindId; WRONG_MARKS.len()],
    written_number: [KindId; 2],
    as_fixed: KindId,
}

impl LawKinds {
    fn new(tally: &mut Tally) -> LawKinds {
        LawKinds {
            decisions: GROUPS
                .map(|(_, _, group)| CODES.map(|code| tally.kind(format!("{group}: {code}"), 200))),
            checks: GROUPS.map(|(_, _, group)| {
                ["check passes", "check fails"]
                    .map(|result| tally.kind(format!("{group}: {result}"), 100))
            }),
            reaches: tally.kind("BF: reaches", 3_000),
            aimed: tally.kind("sheets with laws aimed at their ends", 4_000),
            bad_number: tally.kind("BF: refused by 10 for a law's number", 2_000),
            wrong_marks: WRONG_MARKS.map(|wrong| tally.kind(wrong.text(), 100)),
            written_number: ["accepted", "refused by 10"]
                .map(|what| tally.kind(format!("BF: a law's number written, {what}"), 1_000)),
            as_fixed: tally.kind("values with the first divisor 0: written as BD", 2_000),
        }
    }

    /// The places of the groups that a sheet's bytes are of.
    fn groups(sheet: &[u8]) -> Vec<usize> {
        let Some((kind, n)) = kind_of_bytes(sheet) else {
            return Vec::new();
        };
        let of = |group: &usize| {
            let (of_kind, of_n, _) = GROUPS[*group];
            of_kind == kind && of_n.is_none_or(|of_n| of_n == n)
        };
        (0..GROUPS.len()).filter(of).collect()
    }
}

/// The marks of the bytes before a question's pairs.
const HEADS: [&str; 2] = ["QS", "QR"];
/// The numbers that a reading or its box is refused by.
const OF_READINGS: [u8; 3] = [18, 19, 15];

/// The kinds of decisions by readings.
struct ReadingKinds {
    decide: KindId,
    /// By the head's mark and by the answer's code.
    codes: [[KindId; CODES.len()]; HEADS.len()],
    as_question: KindId,
    causes: [KindId; CAUSES.len()],
    /// A rule by which the answer is another one.
    other_rules: [KindId; OTHER_RULES.len()],
    /// By the number of one variable and by that of a later one.
    two: [[KindId; OF_READINGS.len()]; OF_READINGS.len()],
    /// 12, 13 and 14, by the head's mark, with a reading that is refused.
    heads: [[KindId; 3]; HEADS.len()],
    sheets: KindId,
    ends: KindId,
    any_floats: [KindId; 2],
}

impl ReadingKinds {
    fn new(tally: &mut Tally) -> ReadingKinds {
        let sheets = READING_SHEETS as u64;
        ReadingKinds {
            decide: tally.kind("decisions by readings", 8 * sheets),
            codes: HEADS
                .map(|mark| CODES.map(|code| tally.kind(format!("readings, {mark}: {code}"), 500))),
            as_question: tally.kind("readings as a question with their box", 2 * sheets),
            other_rules: OTHER_RULES
                .map(|(rule, _, _)| tally.kind(format!("readings, {rule}: another answer"), 200)),
            causes: CAUSES
                .map(|(_, number, text)| tally.kind(format!("refused by {number}: {text}"), 150)),
            two: OF_READINGS.map(|one| {
                OF_READINGS.map(|later| {
                    let name = format!("readings: {one} of a variable, {later} of a later one");
                    tally.kind(name, 150)
                })
            }),
            heads: HEADS.map(|mark| {
                [12, 13, 14].map(|by| {
                    tally.kind(
                        format!("readings, {mark}: {by} before a reading's number"),
                        400,
                    )
                })
            }),
            sheets: tally.kind("readings: the sheet's number before all others", sheets),
            ends: tally.kind("readings at the ends of their ranges: not refused", sheets),
            any_floats: ["not refused", "refused"]
                .map(|what| tally.kind(format!("readings of any floats: {what}"), 1_000)),
        }
    }
}

/// The answers to a question about a span, by their code.
const CODES: [&str; 4] = ["keep", "finest", "spent", "refused"];

/// How a file of questions with both marks ends.
const ENDS: [&str; 5] = [
    "with a question",
    "with a short tail",
    "with a byte",
    "with an unknown mark",
    "with questions behind an unknown mark",
];

impl Kinds {
    fn new(tally: &mut Tally) -> Kinds {
        let refused = REFUSED_BY.map(|number| tally.kind(format!("refused {number}"), 100));
        Kinds {
            recovery: tally.kind("recovery checks", SHEETS as u64),
            decide: tally.kind("decisions", 5 * SHEETS as u64),
            keep: tally.kind("keep", 1_000),
            finest: tally.kind("finest", 1_000),
            spent: tally.kind("spent", 1_000),
            other_before: tally.kind("another answer before paper 3 of document 02", 1_000),
            refused,
            write: tally.kind("sheets written", 1_000),
            reach: tally.kind("reaches", SHEETS as u64),
            damaged: tally.kind("damaged bytes", SHEETS as u64),
            listing: tally.kind("listings of a sheet that passed", 1_000),
            aimed: tally.kind("sheets with changes at their caps or around zero", 10_000),
            out_of_order: DIFFERENCES.map(|of| {
                let name = format!("read, refused by 20: {}", of.text());
                tally.kind(name, 300)
            }),
            written_out_of_order: tally.kind("write refused by 20", SHEETS_OF_BOXES as u64),
            other_order: tally.kind("another order: decisions", 2 * SHEETS_OF_BOXES as u64),
            other_check: tally.kind("another order: recovery checks", SHEETS_OF_BOXES as u64),
            on_recovery: SHARINGS.map(|of| {
                let name = format!("read, refused by 22: {}", of.text());
                tally.kind(name, 500)
            }),
            written_on_recovery: tally.kind("write refused by 22", 3_000),
            without_the_test: tally.kind("without the test: fails as first steps do", 3_000),
            beside_recovery: tally.kind("a box just beside the recovery box: accepted", 2_000),
            spans: CODES.map(|code| tally.kind(format!("QR: {code}"), 2_000)),
            as_command: tally.kind("QR with one command as QS", SPANNED_SHEETS as u64),
            wrong_span: WRONGS.map(|wrong| {
                let name = format!("refused by 14: a span {}", wrong.text());
                tally.kind(name, 1_000)
            }),
            faulty_span: [12, 13, 14, 15]
                .map(|number| tally.kind(format!("QR with a fault: refused {number}"), 1_000)),
            files: ENDS.map(|end| tally.kind(format!("listing of both marks {end}"), 200)),
            laws: LawKinds::new(tally),
            readings: ReadingKinds::new(tally),
        }
    }

    /// The kind of a decision.
    fn of(&self, answer: Answer) -> KindId {
        match answer.code() {
            0 => self.keep,
            1 => self.finest,
            2 => self.spent,
            _ => {
                let by = |number: &u8| u32::from(*number) == answer.width();
                let place = REFUSED_BY.iter().position(by);
                self.refused[place.expect("a refusal of a decision")]
            }
        }
    }
}

/// Both decide; the answer is counted under its kind.
fn decide(tally: &mut Tally, kinds: &Kinds, sheet: &[u8], question: &[u8]) {
    let (guard, plain) = (
        archive::decide(sheet, question),
        Answer(plain_guard::decide(sheet, question)),
    );
    tally.saw(kinds.of(plain));
    for group in LawKinds::groups(sheet) {
        tally.saw(kinds.laws.decisions[group][plain.code() as usize]);
    }
    if decide_before(sheet, question) != plain {
        tally.saw(kinds.other_before);
    }
    tally.check(kinds.decide, guard == plain, || {
        format!(
            "{guard:x?} not {plain:x?}: {} {}",
            hex(sheet),
            hex(question)
        )
    });
}

/// Both check a sheet that is accepted.
fn check(tally: &mut Tally, kinds: &Kinds, sheet: &[u8]) {
    let (guard, plain) = (
        archive::recovery(sheet),
        Answer(plain_guard::recovery(sheet)),
    );
    for group in LawKinds::groups(sheet) {
        tally.saw(kinds.laws.checks[group][plain.code() as usize]);
    }
    tally.check(kinds.recovery, guard == plain, || {
        format!("{guard:x?} not {plain:x?}: {}", hex(sheet))
    });
}

/// A reach's packed rounds or refusal, and its two boxes as bytes.
fn plain_reach(sheet: &[u8], call: ReachCall, start: &StateBox) -> (Answer, Vec<u8>) {
    let run = || {
        let sheet = plain_guard::read(sheet)?;
        let command = (call.law != 0).then_some(call.command);
        let sides: Vec<(i64, i64)> = (0..sheet.n as usize)
            .map(|i| (start.lower[i], start.upper[i]))
            .collect();
        plain_guard::reach(&sheet, call.ticks, call.width, command, &sides)
    };
    match run() {
        Ok((end, swept, rounds)) => {
            let side = |(lower, upper): &(i64, i64)| {
                [(*lower as i32).to_be_bytes(), (*upper as i32).to_be_bytes()].concat()
            };
            let boxes = end.iter().chain(&swept).flat_map(side).collect();
            (Answer(rounds), boxes)
        }
        Err(number) => (Answer(REFUSED | u64::from(number) << 32), Vec::new()),
    }
}

fn reach(tally: &mut Tally, kinds: &Kinds, random: &mut Random, case: &Case, sheet: &[u8]) {
    let n = case.sheet.n();
    let call = ReachCall {
        ticks: random.below(TICKS as usize) as u32,
        width: random.below(TICKS as usize) as u32,
        law: random.below(2) as u32,
        command: pick_command(random, &case.sheet),
    };
    let start = near(random, case);
    let mut out = vec![0; reach_length(n)];
    let guard = archive::reach(sheet, call, &pairs(&start, n), &mut out);
    let (plain, mut boxes) = plain_reach(sheet, call, &start);
    boxes.resize(reach_length(n), 0);
    tally.check(kinds.reach, guard == plain && out == boxes, || {
        format!("{guard:x?} not {plain:x?}: {call:?} {}", hex(sheet))
    });
}

/// A fault of each kind, in a sheet or in a question.
fn faults(
    tally: &mut Tally,
    kinds: &Kinds,
    random: &mut Random,
    case: &Case,
    sheet: &[u8],
    question: &[u8],
) {
    let mut numbers = REFUSED_BY.to_vec();
    numbers.retain(|&number| can_have(&case.sheet, number));
    let number = random.pick(&numbers);
    let (mut sheet, mut question) = (sheet.to_vec(), question.to_vec());
    if matches!(number, 12..=15) {
        question_fault(random, &case.sheet, number).apply(&mut question);
    } else {
        sheet_fault(random, &case.sheet, number, false).apply(&mut sheet);
    }
    decide(tally, kinds, &sheet, &question);
}

/// Sheets whose changes lie at their caps, next to them or around zero. The plain guard divides each
/// of these changes and then clamps it.
fn aimed_sheets(tally: &mut Tally, kinds: &Kinds) {
    let random = &mut Random::new(6);
    for _ in 0..AIMED_SHEETS {
        let case = aimed(random);
        let sheet = sheet_bytes(&case.sheet);
        let n = case.sheet.n();
        let question = question_bytes(730_000, case.command, &case.measured, n);
        decide(tally, kinds, &sheet, &question);
        reach(tally, kinds, random, &case, &sheet);
        let same = archive::recovery(&sheet) == Answer(plain_guard::recovery(&sheet));
        tally.check(kinds.aimed, same, || hex(&sheet));
    }
}

/// The plain guard's value of a sheet whose unsafe boxes stand in any order, or on the recovery box,
/// which is that of an accepted sheet.
fn plain_value(accepted: &Sheet, other: &Sheet) -> plain_guard::Sheet {
    let mut value = plain_guard::read(&sheet_bytes(accepted)).expect("an accepted sheet");
    value.no_go = other.unsafe_count as u8;
    for (no_go, sides) in value.no_go_box.iter_mut().zip(other.unsafe_boxes()) {
        for (i, pair) in no_go[..other.n()].iter_mut().enumerate() {
            *pair = (sides.lower[i] as i32, sides.upper[i] as i32);
        }
    }
    value
}

/// A box that is not greater than the one before, by reading and by writing.
fn out_of_order(tally: &mut Tally, kinds: &Kinds, random: &mut Random, sheet: &Sheet) {
    let (j, sides) = any_not_greater(random, sheet);
    let mut other = *sheet;
    other.unsafe_boxes[j] = sides;
    let of = difference(&other.unsafe_boxes[j - 1], &sides, sheet.n());
    let place = DIFFERENCES.iter().position(|&difference| difference == of);
    let bytes = bytes_as_they_are(&other);
    let refused = Answer(REFUSED | 20 << 32);
    let plain = Answer(plain_guard::recovery(&bytes));
    let right = archive::recovery(&bytes) == refused && plain == refused;
    tally.check(kinds.out_of_order[place.expect("a kind")], right, || {
        hex(&bytes)
    });
    let room = &mut vec![0; bytes.len()];
    let written = archive::sheet_write(&other.numbers(), room, 0);
    let plain = plain_guard::write(&plain_value(sheet, &other));
    let right = written == refused && plain == Err(20);
    tally.check(kinds.written_out_of_order, right, || hex(&bytes));
}

/// The same boxes in another order, of which the plain guard is asked without any test.
fn other_order(tally: &mut Tally, kinds: &Kinds, random: &mut Random, case: &Case) {
    let (sheet, bytes) = (&case.sheet, sheet_bytes(&case.sheet));
    let value = plain_value(sheet, &shuffled(random, sheet));
    let same = archive::recovery(&bytes) == Answer(recovery_values(&value));
    tally.check(kinds.other_check, same, || hex(&bytes));
    for measured in [case.measured, near(random, case)] {
        let question = question_bytes(5_000, case.command, &measured, sheet.n());
        let asked = plain_guard::sheet::read_question(&value, &question).expect("a question");
        let plain = Answer(decide_values(&value, &asked));
        tally.saw(kinds.of(plain));
        let same = archive::decide(&bytes, &question) == plain;
        tally.check(kinds.other_order, same, || hex(&bytes));
    }
}

/// Sheets of two unsafe boxes or more: one that is out of order, and all in another order.
fn sheets_of_boxes(tally: &mut Tally, kinds: &Kinds) {
    let random = &mut Random::new(2);
    let cases = std::iter::repeat_with(|| everyday(random).case);
    let several = cases.filter(|case| case.sheet.unsafe_count > 1);
    let cases: Vec<Case> = several.take(SHEETS_OF_BOXES).collect();
    for case in cases {
        out_of_order(tally, kinds, random, &case.sheet);
        other_order(tally, kinds, random, &case);
    }
}

/// An unsafe box on the recovery box, by reading and by writing; and the plain guard's check of the
/// values without the test.
fn on_recovery(tally: &mut Tally, kinds: &Kinds, sheet: &Sheet, other: &Sheet, of: Sharing) {
    let bytes = bytes_as_they_are(other);
    let refused = Answer(REFUSED | 22 << 32);
    let plain = Answer(plain_guard::recovery(&bytes));
    let right = archive::recovery(&bytes) == refused && plain == refused;
    tally.check(kinds.on_recovery[of.place()], right, || hex(&bytes));
    let value = plain_value(sheet, other);
    let room = &mut vec![0; bytes.len()];
    let written = archive::sheet_write(&other.numbers(), room, 0);
    let right = written == refused && plain_guard::write(&value) == Err(22);
    tally.check(kinds.written_on_recovery, right, || hex(&bytes));
    let rounds = rounds_of_first_steps(&value);
    let right = recovery_values(&value) == (1 << 48) + (1 << 32) + rounds;
    tally.check(kinds.without_the_test, right, || hex(&bytes));
}

/// The rounds of one step from the recovery box at each width of the check.
fn rounds_of_first_steps(value: &plain_guard::Sheet) -> u64 {
    let start = to_box(&value.recovery, value.n);
    let mut count = Count {
        rounds: 0,
        allowance: None,
    };
    let halves = |width: &i64| Some(width / 2);
    let widths = std::iter::successors(Some(i64::from(value.rho)), halves);
    for width in widths.take_while(|&width| width > 0) {
        step(value, &start, width, None, &mut count).expect("no allowance");
    }
    count.rounds
}

/// The same box moved just beside the recovery box.
fn beside_recovery(tally: &mut Tally, kinds: &Kinds, sheet: &Sheet) {
    let bytes = sheet_bytes(sheet);
    let plain = Answer(plain_guard::recovery(&bytes));
    let read = plain.refusal().is_none() && archive::recovery(&bytes) == plain;
    let written = plain_guard::write(&plain_value(sheet, sheet));
    let right = read && written.as_deref() == Ok(&bytes[..]);
    tally.check(kinds.beside_recovery, right, || hex(&bytes));
}

/// Unsafe boxes on the recovery box in each way, and beside it.
fn sheets_on_recovery(tally: &mut Tally, kinds: &Kinds) {
    let random = &mut Random::new(8);
    for _ in 0..OVERLAP_SHEETS {
        let sheet = everyday(random).case.sheet;
        for wanted in SHARINGS {
            let Some(sides) = any_sharing(random, &sheet, wanted) else {
                continue;
            };
            let other = with_box(random, &sheet, sides);
            on_recovery(tally, kinds, &sheet, &other, wanted);
            let moved = moved_beside(random, &sides, &sheet);
            beside_recovery(tally, kinds, &with_box(random, &sheet, moved));
        }
    }
}

/// Both decide on a span; the answer is counted under its code. It is the plain guard's.
fn decide_span(tally: &mut Tally, kinds: &Kinds, sheet: &[u8], question: &[u8]) -> Answer {
    decide(tally, kinds, sheet, question);
    let plain = Answer(plain_guard::decide(sheet, question));
    tally.saw(kinds.spans[plain.code() as usize]);
    plain
}

/// A span with as many rounds as it needs, with few, of one command, and refused.
fn asked_spans(
    tally: &mut Tally,
    kinds: &Kinds,
    random: &mut Random,
    case: &Case,
    span: CommandRange,
) {
    let (sheet, n) = (sheet_bytes(&case.sheet), case.sheet.n());
    for allowance in [730_000, random.below(40) as u32] {
        let question = span_bytes(allowance, span, &case.measured, n);
        decide_span(tally, kinds, &sheet, &question);
    }
    let other = span_bytes(5_000, any_span(random, &case.sheet), &near(random, case), n);
    decide_span(tally, kinds, &sheet, &other);
    let one = question_bytes(5_000, case.command, &case.measured, n);
    let span = CommandRange::one(case.command);
    let as_one = span_bytes(5_000, span, &case.measured, n);
    let answer = decide_span(tally, kinds, &sheet, &as_one);
    let same = archive::decide(&sheet, &one) == answer;
    tally.check(kinds.as_command, same, || hex(&sheet));
}

/// Spans that are refused, each by a fault.
fn faulty_spans(
    tally: &mut Tally,
    kinds: &Kinds,
    random: &mut Random,
    case: &Case,
    span: CommandRange,
) {
    let (sheet, n) = (sheet_bytes(&case.sheet), case.sheet.n());
    let wrong = random.below(WRONGS.len());
    if WRONGS[wrong].can_be(&case.sheet) {
        let ends = wrong_span(random, &case.sheet, WRONGS[wrong]);
        let question = span_bytes(5_000, ends, &case.measured, n);
        let answer = decide_span(tally, kinds, &sheet, &question);
        let right = answer.refusal() == Some(14);
        tally.check(kinds.wrong_span[wrong], right, || hex(&question));
    }
    let place = random.below(4);
    let number = 12 + place as u8;
    let mut question = span_bytes(5_000, span, &case.measured, n);
    span_fault(random, &case.sheet, number).apply(&mut question);
    let answer = decide_span(tally, kinds, &sheet, &question);
    let right = answer.refusal() == Some(number);
    tally.check(kinds.faulty_span[place], right, || hex(&question));
}

/// A file of some questions with both marks that ends in this way.
fn file_of_both(random: &mut Random, case: &Case, end: usize) -> Vec<u8> {
    let n = case.sheet.n();
    let question = |random: &mut Random| match random.below(2) {
        0 => question_bytes(60, case.command, &near(random, case), n),
        _ => span_bytes(60, any_span(random, &case.sheet), &near(random, case), n),
    };
    let count = 1 + random.below(3);
    let mut file: Vec<u8> = (0..count).flat_map(|_| question(random)).collect();
    let last = question(random);
    let unknown = random.pick(&[b"QT", b"RR", b"sq", b"SQ", b"RQ", b"\0\0"]);
    match end {
        0 => file.extend(last),
        1 => file.extend(&last[..2 + random.below(last.len() - 2)]),
        2 => file.push(random.pick(&[b'Q', b'R', 0])),
        3 => file.extend(unknown),
        _ => file.extend([&unknown[..], &last[..], &question(random)].concat()),
    }
    file
}

/// Sheets whose boxes are placed for a span: decisions, refusals and files of both marks.
fn sheets_of_spans(tally: &mut Tally, kinds: &Kinds) {
    let random = &mut Random::new(4);
    for turn in 0..SPANNED_SHEETS {
        let (case, span) = spanned(random);
        asked_spans(tally, kinds, random, &case, span);
        faulty_spans(tally, kinds, random, &case, span);
        let (sheet, end) = (sheet_bytes(&case.sheet), turn % ENDS.len());
        let asks = file_of_both(random, &case, end);
        let plain = plain_guard::listing(Some(&sheet), Some(&asks));
        if plain.starts_with(b"sheet pass") {
            let same = plain == second_guard::listing::listing(&sheet, &asks).into_bytes();
            tally.check(kinds.files[end], same, || hex(&sheet));
        }
    }
}

/// Sheets with laws: answers, law numbers and marks that are refused, and values.
fn sheets_of_laws(tally: &mut Tally, kinds: &Kinds) {
    let random = &mut Random::new(9);
    for _ in 0..LAW_SHEETS {
        let case = followed(random);
        let (sheet, n) = (sheet_bytes(&case.sheet), case.sheet.n());
        let question = question_bytes(730_000, case.command, &case.measured, n);
        check(tally, kinds, &sheet);
        decide(tally, kinds, &sheet, &question);
        reach(tally, kinds, random, &case, &sheet);
        tally.saw(kinds.laws.reaches);
        bad_law_number(tally, kinds, random, &case.sheet, &question);
        written_law_number(tally, kinds, random, &sheet);
        written_as_fixed(tally, kinds, &sheet);
    }
    for _ in 0..AIMED_LAWS {
        let mut case = aimed_laws(random);
        case.measured = case.sheet.recovery;
        let sheet = sheet_bytes(&case.sheet);
        reach(tally, kinds, random, &case, &sheet);
        let same = archive::recovery(&sheet) == Answer(plain_guard::recovery(&sheet));
        tally.check(kinds.laws.aimed, same, || hex(&sheet));
    }
}

/// Machines of five and six variables that are drawn to a center.
fn drawn_machines(tally: &mut Tally, kinds: &Kinds) {
    let random = &mut Random::new(10);
    for turn in 0..4 * DRAWN_SHEETS {
        let kind = [Kind::Fixed, Kind::Following][turn % 2];
        let sheet = drawn(random, 5 + turn / 2 % 2, kind).sheet;
        let bytes = sheet_bytes(&sheet);
        check(tally, kinds, &bytes);
        let question = any_question(random, &sheet);
        decide(tally, kinds, &bytes, &bytes_of(&question, sheet.n()));
    }
}

/// What the drive reports: a kind and two floats for each variable.
#[derive(Clone, Debug)]
struct Report {
    kinds: Vec<u8>,
    floats: Vec<f32>,
}

impl Report {
    /// One that measures about this box.
    fn of(random: &mut Random, sides: &StateBox, n: usize) -> Report {
        let mut report = Report {
            kinds: vec![0; n],
            floats: vec![0.0; 2 * n],
        };
        for i in 0..n {
            let (lower, upper) = (sides.lower[i], sides.upper[i]);
            match random.below(2) {
                0 => report.put(i, 1, any_point(random, lower, upper)),
                _ => report.put(i, 2, any_pair(random, lower, upper)),
            }
        }
        // What lies beyond n is not looked at.
        if random.percent(30) {
            report.kinds.push(random.below(4) as u8);
            report.floats.extend(&[f32::NAN; 3][..random.below(4)]);
        }
        report
    }

    fn put(&mut self, i: usize, kind: u8, two: [f32; 2]) {
        self.kinds[i] = kind;
        self.floats[2 * i..2 * i + 2].copy_from_slice(&two);
    }

    /// The plain guard's list. For C, 1 is a value with its tolerance and 2 a pair; any other kind, or one
    /// whose floats are not there, is no reading.
    fn list(&self) -> Vec<Reading> {
        let reading = |(i, kind): (usize, &u8)| match (kind, self.floats.get(2 * i..2 * i + 2)) {
            (1, Some(&[value, tolerance])) => Reading::Point(Point { value, tolerance }),
            (2, Some(&[lower, upper])) => Reading::Pair(lower, upper),
            _ => Reading::Missing,
        };
        self.kinds.iter().enumerate().map(reading).collect()
    }
}

/// A float within +-1,000,000 whose floor is this number.
fn with_floor(random: &mut Random, whole: i64) -> f32 {
    let least = whole as f32;
    let float = match random.below(4) {
        0 => least,
        1 => least.next_up(),
        2 => (least + 1.0).next_down(),
        _ => least + random.below(16) as f32 / 16.0,
    };
    float.clamp(-1e6, 1e6)
}

/// The same of its ceil.
fn with_ceil(random: &mut Random, whole: i64) -> f32 {
    -with_floor(random, -whole)
}

/// A tolerance whose ceil is this number.
fn tolerance(random: &mut Random, whole: i64) -> f32 {
    match whole {
        0 => random.pick(&[0.0, -0.0]),
        _ => with_ceil(random, whole),
    }
}

/// A value with a tolerance for this side of a box, or for a little less or more of it.
fn any_point(random: &mut Random, lower: i64, upper: i64) -> [f32; 2] {
    let most = ((upper - lower) / 2).min(1_000);
    let some = random.range(0, most);
    let room = random.pick(&[some, most]);
    let value = random.range(lower + room, upper - room);
    [with_floor(random, value), tolerance(random, room)]
}

/// A pair for this side of a box.
fn any_pair(random: &mut Random, lower: i64, upper: i64) -> [f32; 2] {
    let (from, to) = (with_floor(random, lower), with_ceil(random, upper));
    if from > to {
        return [lower as f32, upper as f32];
    }
    [from, to]
}

/// Two floats of a reading of this kind that are in range and in order.
fn in_order(random: &mut Random, kind: u8) -> [f32; 2] {
    let mut within = |limit: i64| random.range(-16 * limit, 16 * limit) as f32 / 16.0;
    let (one, other) = (within(1_000_000), within(1_000_000));
    match kind {
        1 => [one, within(1_000).abs()],
        _ => [one.min(other), one.max(other)],
    }
}

/// A number that is bad wherever it stands.
#[derive(Clone, Copy)]
enum Bad {
    Nan,
    Infinite,
    Over,
}

impl Bad {
    fn any(self, random: &mut Random) -> f32 {
        let far = random.spread(1_000_001, 1 << 60) as f32;
        let size = match self {
            Bad::Nan => f32::from_bits(0x7f80_0000 + random.int(1, 0x7f_ffff) as u32),
            Bad::Infinite => f32::INFINITY,
            Bad::Over => random.pick(&[1e6_f32.next_up(), 1_000_001.0, f32::MAX, far]),
        };
        random.pick(&[size, -size])
    }
}

/// Why a reading is refused.
#[derive(Clone, Copy)]
enum Cause {
    OtherKind,
    KindsEnd,
    FloatsEnd,
    /// The kind, and which of its two floats.
    Float(Bad, u8, usize),
    BelowZero,
    OverThousand,
    Reversed,
    Outside,
}

/// All of them with their numbers.
const CAUSES: [(Cause, u8, &str); 19] = [
    (Cause::OtherKind, 18, "another kind"),
    (Cause::KindsEnd, 18, "the kinds end before it"),
    (Cause::FloatsEnd, 18, "the floats end before it"),
    (Cause::Float(Bad::Nan, 1, 0), 19, "a NaN as value"),
    (Cause::Float(Bad::Nan, 1, 1), 19, "a NaN as tolerance"),
    (Cause::Float(Bad::Nan, 2, 0), 19, "a NaN as lower"),
    (Cause::Float(Bad::Nan, 2, 1), 19, "a NaN as upper"),
    (Cause::Float(Bad::Infinite, 1, 0), 19, "infinite value"),
    (Cause::Float(Bad::Infinite, 1, 1), 19, "infinite tolerance"),
    (Cause::Float(Bad::Infinite, 2, 0), 19, "infinite lower"),
    (Cause::Float(Bad::Infinite, 2, 1), 19, "infinite upper"),
    (Cause::Float(Bad::Over, 1, 0), 19, "value beyond range"),
    (Cause::Float(Bad::Over, 1, 1), 19, "tolerance beyond range"),
    (Cause::Float(Bad::Over, 2, 0), 19, "lower beyond range"),
    (Cause::Float(Bad::Over, 2, 1), 19, "upper beyond range"),
    (Cause::BelowZero, 19, "a tolerance below 0"),
    (Cause::OverThousand, 19, "a tolerance over 1,000"),
    (Cause::Reversed, 19, "a reversed pair"),
    (Cause::Outside, 15, "a box of readings out of range"),
];

impl Cause {
    /// Puts it into a variable. What the slices have behind it may be lost.
    fn put(self, random: &mut Random, report: &mut Report, i: usize) {
        let [value, most] = in_order(random, 1);
        match self {
            Cause::OtherKind => report.kinds[i] = random.pick(&[0, 3, 4, 128, 255]),
            Cause::KindsEnd => report.kinds.truncate(i),
            Cause::FloatsEnd => report.floats.truncate(2 * i + random.below(2)),
            Cause::Float(bad, kind, place) => {
                let mut two = in_order(random, kind);
                two[place] = bad.any(random);
                report.put(i, kind, two);
            }
            Cause::BelowZero => {
                let below = [0.0_f32.next_down(), -0.5, -1.0, -1e6, (-most).next_down()];
                report.put(i, 1, [value, random.pick(&below)]);
            }
            Cause::OverThousand => {
                let over = [1e3_f32.next_up(), 1000.5, 1e6, 1000.0625 + most];
                report.put(i, 1, [value, random.pick(&over)]);
            }
            Cause::Reversed => {
                let whole = value.floor().clamp(-999_999.0, 999_999.0);
                let upper = [0.0, whole, whole + 0.25, -1e6];
                let upper = random.pick(&upper);
                let lower = [upper.next_up(), upper + 0.5, 1e6];
                report.put(i, 2, [random.pick(&lower), upper]);
            }
            Cause::Outside => {
                let room = random.spread(1, 1_000);
                let size = (1_000_000 - random.below(room as usize)) as f32;
                let value = random.pick(&[size, -size]);
                report.put(i, 1, [value, tolerance(random, room)]);
            }
        }
    }
}

/// Bytes before a question's pairs with one of the marks.
fn head_of(case: &Case, span: CommandRange, mark: usize, allowance: u32) -> Vec<u8> {
    match mark {
        0 => question_bytes(allowance, case.command, &case.measured, 0),
        _ => span_bytes(allowance, span, &case.measured, 0),
    }
}

/// The arguments of a decision by readings.
#[derive(Clone)]
struct Call {
    sheet: Vec<u8>,
    head: Vec<u8>,
    report: Report,
}

impl Call {
    fn n(&self) -> usize {
        usize::from(self.sheet[2])
    }

    /// The place of the head's mark.
    fn mark(&self) -> Option<usize> {
        HEADS
            .iter()
            .position(|mark| self.head.starts_with(mark.as_bytes()))
    }

    /// The archive's answer to the question with these sides.
    fn with_sides(&self, sides: impl Iterator<Item = [i32; 2]>) -> Answer {
        let pairs = sides.flatten().flat_map(i32::to_be_bytes);
        let question: Vec<u8> = self.head.iter().copied().chain(pairs).collect();
        archive::decide(&self.sheet, &question)
    }

    fn text(&self) -> String {
        let (sheet, head) = (hex(&self.sheet), hex(&self.head));
        format!("{sheet} {head} {:?}", self.report)
    }
}

/// Both decide by readings. The answer is the plain guard's.
fn decide_by(tally: &mut Tally, kinds: &ReadingKinds, call: &Call) -> Answer {
    let Call {
        sheet,
        head,
        report,
    } = call;
    let guard = archive::decide_readings(sheet, head, &report.kinds, &report.floats);
    let plain = Answer(plain_guard::decide_readings(sheet, head, &report.list()));
    if let Some(mark) = call.mark() {
        tally.saw(kinds.codes[mark][plain.code() as usize]);
    }
    tally.check(kinds.decide, guard == plain, || {
        format!("{guard:x?} not {plain:x?}: {}", call.text())
    });
    plain
}

/// Both decide by readings that are refused by this number.
fn refused_by(tally: &mut Tally, kinds: &ReadingKinds, of: KindId, call: &Call, number: u8) {
    let right = decide_by(tally, kinds, call).refusal() == Some(number);
    tally.check(of, right, || call.text());
}

/// The sides that two floats give.
type Rule = fn(f32, f32) -> [f32; 2];

/// Rules that a guard could have by mistake: of a value with its tolerance, and of a pair.
const OTHER_RULES: [(&str, Rule, Rule); 3] = [
    (
        "cut toward zero",
        |value, room| [value.trunc() - room.trunc(), value.trunc() + room.trunc()],
        |lower, upper| [lower.trunc(), upper.trunc()],
    ),
    (
        "rounded to the nearest",
        |value, room| [value.round() - room.round(), value.round() + room.round()],
        |lower, upper| [lower.round(), upper.round()],
    ),
    (
        "rounded after the sum",
        |value, room| [(value - room).floor(), (value + room).ceil()],
        |lower, upper| [lower.floor(), upper.ceil()],
    ),
];

/// Readings of a box, which are answered as the question with the box that they give.
fn asked_by_readings(tally: &mut Tally, kinds: &ReadingKinds, call: &Call) {
    let answer = decide_by(tally, kinds, call);
    let readings = &call.report.list()[..call.n()];
    let same = measured_box(readings, call.sheet[2]).is_ok_and(|sides| {
        let sides = sides.iter().map(|&(lower, upper)| [lower, upper]);
        call.with_sides(sides) == answer
    });
    tally.check(kinds.as_question, same, || call.text());
    for (kind, (_, point, pair)) in kinds.other_rules.iter().zip(OTHER_RULES) {
        let sides = readings.iter().map(|&reading| match reading {
            Reading::Point(Point { value, tolerance }) => point(value, tolerance),
            Reading::Pair(lower, upper) => pair(lower, upper),
            Reading::Missing => unreachable!("no reading is missing"),
        });
        if call.with_sides(sides.map(|two| two.map(|side| side as i32))) != answer {
            tally.saw(*kind);
        }
    }
}

/// A cause with one of the numbers, each number alike.
fn any_cause(random: &mut Random) -> (Cause, u8) {
    let number = random.pick(&OF_READINGS);
    let of = CAUSES.iter().filter(|cause| cause.1 == number);
    let causes: Vec<Cause> = of.map(|cause| cause.0).collect();
    (random.pick(&causes), number)
}

/// One cause in any variable.
fn faulty_reading(tally: &mut Tally, kinds: &ReadingKinds, random: &mut Random, call: &Call) {
    let (place, i) = (random.below(CAUSES.len()), random.below(call.n()));
    let (cause, number, _) = CAUSES[place];
    let mut call = call.clone();
    cause.put(random, &mut call.report, i);
    refused_by(tally, kinds, kinds.causes[place], &call, number);
}

/// A cause in each of two variables: the first of 18 and 19 is named, and 15 where there is none.
fn two_faulty_readings(tally: &mut Tally, kinds: &ReadingKinds, random: &mut Random, call: &Call) {
    let j = 1 + random.below(call.n() - 1);
    let i = random.below(j);
    let ((cause, number), (later, behind)) = (any_cause(random), any_cause(random));
    let mut call = call.clone();
    later.put(random, &mut call.report, j);
    cause.put(random, &mut call.report, i);
    let place = |number: u8| OF_READINGS.iter().position(|&of| of == number);
    let of = kinds.two[place(number).expect("one")][place(behind).expect("one")];
    let first = if number == 15 { behind } else { number };
    refused_by(tally, kinds, of, &call, first);
}

/// With a reading that is refused a fault in the bytes before the pairs, then also one in the sheet.
fn faults_before_readings(
    tally: &mut Tally,
    kinds: &ReadingKinds,
    random: &mut Random,
    sheet: &Sheet,
    call: &Call,
) {
    let mut call = call.clone();
    let mark = call.mark().expect("a mark");
    let (cause, i) = (any_cause(random).0, random.below(call.n()));
    cause.put(random, &mut call.report, i);
    let place = random.below(3);
    let number = 12 + place as u8;
    let head = &mut call.head;
    match mark {
        _ if number == 12 && random.percent(40) => head.truncate(random.below(head.len())),
        0 => question_fault(random, sheet, number).apply(head),
        _ => span_fault(random, sheet, number).apply(head),
    }
    refused_by(tally, kinds, kinds.heads[mark][place], &call, number);
    let mut numbers = REFUSED_BY.to_vec();
    numbers.retain(|&number| !matches!(number, 12..=15) && can_have(sheet, number));
    let number = random.pick(&numbers);
    sheet_fault(random, sheet, number, false).apply(&mut call.sheet);
    refused_by(tally, kinds, kinds.sheets, &call, number);
}

/// A reading at the ends of its ranges, which count.
fn at_ends(random: &mut Random) -> (u8, [f32; 2]) {
    let least = f32::from_bits(1);
    let whole = random.int(-999_000, 999_000) as f32;
    let value = random.pick(&[1e6, -1e6, 1e6_f32.next_down(), (-1e6_f32).next_up()]);
    let zero = random.pick(&[0.0, -0.0]);
    let tolerance = random.pick(&[1e3, 1e3_f32.next_down(), least]);
    match random.below(6) {
        0 => (1, [value, zero]),
        1 => (1, [whole, tolerance]),
        2 => (2, [value, value]),
        3 => (2, [-1e6, value]),
        4 => (2, [zero, random.pick(&[0.0, -0.0, least])]),
        _ => (1, [random.pick(&[zero, least, -least]), tolerance]),
    }
}

/// Any float, often one within +-1,000,000.
fn any_float(random: &mut Random) -> f32 {
    let bits = random.bits() as u32;
    match random.below(3) {
        0 => f32::from_bits(bits),
        // Of any exponent up to that of 1,000,000.
        1 => f32::from_bits(bits & 0x807f_ffff | random.int(0, 146) as u32 * 0x80_0000),
        _ => random.signed_spread(1, 17_000_000) as f32 / 16.0,
    }
}

/// Readings at the ends, and of any floats, in one of the variables.
fn other_readings(tally: &mut Tally, kinds: &ReadingKinds, random: &mut Random, call: &Call) {
    let i = random.below(call.n());
    let mut call = call.clone();
    let (kind, two) = at_ends(random);
    call.report.put(i, kind, two);
    let right = decide_by(tally, kinds, &call).refusal().is_none();
    tally.check(kinds.ends, right, || call.text());
    let two = [any_float(random), any_float(random)];
    call.report.put(i, random.pick(&[1, 2]), two);
    let refused = decide_by(tally, kinds, &call).refusal();
    let right = refused.is_none_or(|number| matches!(number, 15 | 19));
    let kind = kinds.any_floats[usize::from(refused.is_some())];
    tally.check(kind, right, || call.text());
}

/// Sheets that are asked by readings, with both marks, and readings of every kind and fault.
fn sheets_by_readings(tally: &mut Tally, kinds: &ReadingKinds) {
    let random = &mut Random::new(1);
    for turn in 0..READING_SHEETS {
        let (case, span) = spanned(random);
        let mark = turn % HEADS.len();
        let (few, near) = (random.below(40) as u32, near(random, &case));
        let mut call = |allowance: u32, sides: &StateBox| Call {
            sheet: sheet_bytes(&case.sheet),
            head: head_of(&case, span, mark, allowance),
            report: Report::of(random, sides, case.sheet.n()),
        };
        asked_by_readings(tally, kinds, &call(730_000, &case.measured));
        asked_by_readings(tally, kinds, &call(few, &case.measured));
        asked_by_readings(tally, kinds, &call(5_000, &near));
        let call = call(5_000, &case.measured);
        faulty_reading(tally, kinds, random, &call);
        if call.n() > 1 {
            two_faulty_readings(tally, kinds, random, &call);
        }
        other_readings(tally, kinds, random, &call);
        faults_before_readings(tally, kinds, random, &case.sheet, &call);
    }
}

/// A law's number out of range in a file; and marks or a length that are not the first band's.
fn bad_law_number(
    tally: &mut Tally,
    kinds: &Kinds,
    random: &mut Random,
    sheet: &Sheet,
    question: &[u8],
) {
    let mut bytes = sheet_bytes(sheet);
    law_fault(random, sheet).apply(&mut bytes);
    let refused = |bytes: &[u8], number: u8| {
        let wanted = Answer(REFUSED | u64::from(number) << 32);
        let plain = Answer(plain_guard::decide(bytes, question));
        archive::decide(bytes, question) == wanted && plain == wanted
    };
    let right = refused(&bytes, 10);
    tally.check(kinds.laws.bad_number, right, || hex(&bytes));
    let place = random.below(WRONG_MARKS.len());
    let wrong = WRONG_MARKS[place];
    let mut other = *sheet;
    if wrong.of == Kind::Fixed {
        other.bands.iter_mut().for_each(|band| band.law.divisor = 0);
    }
    if sheet.band_count > 1 {
        let bytes = wrong.bytes(random, &other);
        let right = refused(&bytes, wrong.number);
        tally.check(kinds.laws.wrong_marks[place], right, || hex(&bytes));
    }
}

/// The archive's and the plain guard's writing of values that were read, one of which was changed in both.
fn written(
    sheet: &[u8],
    slots: impl Fn(&mut [i32; NUMBERS]),
    values: impl Fn(&mut plain_guard::Sheet),
) -> (Result<Vec<u8>, u8>, Result<Vec<u8>, u8>) {
    let mut numbers = [0; NUMBERS];
    archive::sheet_read(sheet, &mut numbers);
    slots(&mut numbers);
    let mut buffer = vec![0; LONGEST_SHEET];
    let guard = archive::sheet_write(&numbers, &mut buffer, 0).length();
    let mut value = plain_guard::read(sheet).expect("an accepted sheet");
    values(&mut value);
    let bytes = guard.map(|length| buffer[..length].to_vec());
    (bytes, plain_guard::write(&value))
}

/// A law's number at its ends or past them, in values.
fn written_law_number(tally: &mut Tally, kinds: &Kinds, random: &mut Random, sheet: &[u8]) {
    let (n, bands) = (usize::from(sheet[2]), usize::from(sheet[3]));
    let (k, number) = (random.below(bands), LawNumber::any(random, n));
    let (least, greatest) = number.ends();
    let more = match number {
        LawNumber::Coefficient(_) => [i16::MIN.into(), i16::MAX.into()],
        _ => [i32::MIN, i32::MAX],
    };
    let near = [least - 1, least, greatest, greatest + 1];
    let value = random.pick(&[near[0], near[1], near[2], near[3], more[0], more[1]]);
    let (guard, plain) = written(
        sheet,
        |numbers| numbers[slot_law(k) + number.slot()] = value,
        |values| {
            let law = &mut values.band[k].law;
            match number {
                LawNumber::Coefficient(i) => law.coefficients[i] = value as i16,
                LawNumber::Constant => law.constant = value,
                LawNumber::Divisor => law.divisor = value,
            }
        },
    );
    let kind = kinds.laws.written_number[usize::from(plain.is_err())];
    let right = guard == plain && plain.as_ref().err().is_none_or(|&by| by == 10);
    tally.check(kind, right, || hex(sheet));
}

/// The same values with the first divisor 0.
fn written_as_fixed(tally: &mut Tally, kinds: &Kinds, sheet: &[u8]) {
    let (guard, plain) = written(
        sheet,
        |numbers| numbers[slot_law(0) + LAW_DIVISOR] = 0,
        |values| values.band[0].law.divisor = 0,
    );
    let is_fixed = |bytes: &Vec<u8>| kind_of_bytes(bytes).is_some_and(|of| of.0 == Kind::Fixed);
    let right = guard == plain && plain.as_ref().is_ok_and(is_fixed);
    tally.check(kinds.laws.as_fixed, right, || hex(sheet));
}

fn main() {
    let mut tally = Tally::new();
    let kinds = Kinds::new(&mut tally);
    let mut random = Random::new(20_261_115);
    for _ in 0..SHEETS {
        let times = times(&mut random, TICKS);
        let mut case = model(&mut random, times, VARIABLES);
        let halvings = random.below(4);
        shape(&mut random, &mut case, halvings);
        let sheet = sheet_bytes(&case.sheet);
        let n = case.sheet.n();

        check(&mut tally, &kinds, &sheet);
        let mut question = question_bytes(730_000, case.command, &case.measured, n);
        decide(&mut tally, &kinds, &sheet, &question);
        let rounds = plain_guard::decide(&sheet, &question) as u32;
        for allowance in [rounds.saturating_sub(1), random.below(40) as u32] {
            question = question_bytes(allowance, case.command, &case.measured, n);
            decide(&mut tally, &kinds, &sheet, &question);
        }
        let command = pick_command(&mut random, &case.sheet);
        question = question_bytes(5_000, command, &near(&mut random, &case), n);
        decide(&mut tally, &kinds, &sheet, &question);
        faults(&mut tally, &kinds, &mut random, &case, &sheet, &question);
        reach(&mut tally, &kinds, &mut random, &case, &sheet);

        let asks = question.repeat(2);
        let asks = &asks[..random.below(asks.len() + 1)];
        let plain = plain_guard::listing(Some(&sheet), Some(asks));
        if plain.starts_with(b"sheet pass") {
            let same = plain == second_guard::listing::listing(&sheet, asks).into_bytes();
            tally.check(kinds.listing, same, || hex(&sheet));
        }

        let mut damaged = sheet.clone();
        damage(&mut random, &mut damaged);
        let same = archive::recovery(&damaged) == Answer(plain_guard::recovery(&damaged));
        tally.check(kinds.damaged, same, || hex(&damaged));
        if let Ok(value) = plain_guard::read(&damaged) {
            let same = plain_guard::write(&value).as_deref() == Ok(&damaged[..]);
            tally.check(kinds.write, same, || hex(&damaged));
        }
    }
    aimed_sheets(&mut tally, &kinds);
    sheets_of_boxes(&mut tally, &kinds);
    sheets_on_recovery(&mut tally, &kinds);
    sheets_of_spans(&mut tally, &kinds);
    sheets_of_laws(&mut tally, &kinds);
    drawn_machines(&mut tally, &kinds);
    sheets_by_readings(&mut tally, &kinds.readings);
    std::process::exit(tally.finish());
}
