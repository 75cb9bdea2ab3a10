//! Calls with two faults: every ordered pair of causes that one call can have, the first of which is
//! answered. They are tried on sheets of both kinds and once more on sheets with laws alone, there also
//! with a law's number as a cause of its own.

use super::{plain_question, plain_reach, Matching, PAIRS};
use matching::archive::format::{reach_length, LONGEST_SHEET};
use matching::archive::Answer;
use matching::expected;
use matching::generate::{model, shape, sheet_bytes, times, Case};
use matching::laws::followed;
use matching::random::Random;
use matching::spoil::{
    bytes_have, can_have, law_fault, law_number_fault, number_fault, question_fault, sheet_fault,
    values_have, Fault,
};
use matching::tally::KindId;
use second_guard::boxes::VARIABLES;
use second_guard::sheet::{CommandRange, Sheet};

/// How many sheets the faults are put into.
const CASES: usize = 400;

/// The refusals of a sheet's bytes, of its numbers, and of the calls on it.
pub(super) const OF_BYTES: [u8; 13] = [1, 2, 3, 4, 5, 6, 7, 8, 9, 10, 11, 20, 22];
const OF_NUMBERS: [u8; 10] = [2, 3, 4, 6, 8, 9, 10, 11, 20, 22];
const OF_QUESTION: [u8; 4] = [12, 13, 14, 15];
/// In the order of a reach.
const OF_REACH: [u8; 4] = [16, 14, 15, 17];

/// What a sheet is refused for.
#[derive(Clone, Copy, PartialEq)]
pub(super) enum Cause {
    /// Any fault of this number.
    Any(u8),
    /// A law's number: 10.
    Law,
}

impl Cause {
    pub(super) fn number(self) -> u8 {
        match self {
            Cause::Any(number) => number,
            Cause::Law => 10,
        }
    }

    fn text(self) -> String {
        match self {
            Cause::Any(number) => number.to_string(),
            Cause::Law => "10 by a law".to_string(),
        }
    }

    pub(super) fn in_bytes(self, random: &mut Random, sheet: &Sheet, layout_kept: bool) -> Fault {
        match self {
            Cause::Any(number) => sheet_fault(random, sheet, number, layout_kept),
            Cause::Law => law_fault(random, sheet),
        }
    }

    fn in_numbers(self, random: &mut Random, sheet: &Sheet, layout_kept: bool) -> Fault<i32> {
        match self {
            Cause::Any(number) => number_fault(random, sheet, number, layout_kept),
            Cause::Law => law_number_fault(random, sheet),
        }
    }
}

/// The causes of these numbers.
fn any_of(numbers: &[u8]) -> Vec<Cause> {
    numbers.iter().map(|&number| Cause::Any(number)).collect()
}

/// Two causes, the first of which is answered.
type Pair = (Cause, Cause);

/// The pairs of one sheet: by number up to 6, then in the file's order.
fn pairs_of_bytes() -> Vec<Pair> {
    let in_file = [(8, 7), (9, 7), (9, 8), (10, 7), (10, 8), (10, 9), (11, 7)];
    let order = [(20, 7), (20, 11), (20, 20)];
    (1..=11)
        .flat_map(|first| (first + 1..=11).map(move |second| (first, second)))
        .chain(in_file)
        .chain((6..=11).map(|number| (number, number)))
        .chain((1..=11).map(|first| (first, 20)))
        .chain(order)
        .chain((1..=11).chain([20]).map(|first| (first, 22)))
        .map(|(first, second)| (Cause::Any(first), Cause::Any(second)))
        .collect()
}

/// The pairs of a sheet's numbers.
fn pairs_of_numbers() -> Vec<Pair> {
    let mut pairs = vec![(9, 8), (10, 8), (10, 9), (20, 11)];
    for (place, &first) in OF_NUMBERS.iter().enumerate() {
        for &second in &OF_NUMBERS[place..] {
            if first != second || (6..22).contains(&first) {
                pairs.push((first, second));
            }
        }
    }
    pairs
        .into_iter()
        .map(|(first, second)| (Cause::Any(first), Cause::Any(second)))
        .collect()
}

/// The pairs with a law's number, given the causes that can come before it and behind it.
fn pairs_of_law(before: &[u8], behind: &[u8]) -> Vec<Pair> {
    let before = any_of(before).into_iter().map(|cause| (cause, Cause::Law));
    let behind = any_of(behind).into_iter().map(|cause| (Cause::Law, cause));
    before
        .chain(behind)
        .chain([(Cause::Law, Cause::Law)])
        .collect()
}

/// Sheets into which faults are put, and what the names of their calls begin with.
pub(super) struct Cases {
    pub(super) of: &'static str,
    pub(super) all: Vec<Case>,
}

impl Matching {
    /// The kind of two faults; the first is the one reported.
    pub(super) fn pair(&mut self, call: &str, first: &str, second: &str) -> KindId {
        let (tally, name) = (&mut self.tally, format!("{call}: {first} before {second}"));
        *self
            .kinds
            .pairs
            .entry(name.clone())
            .or_insert_with(|| tally.kind(name, 200))
    }

    pub(super) fn pair_of(
        &mut self,
        call: &str,
        cases: &Cases,
        first: Cause,
        second: &str,
    ) -> KindId {
        let call = format!("{}{call}", cases.of);
        self.pair(&call, &first.text(), second)
    }

    /// One of the cases, into which faults of these numbers can be put.
    pub(super) fn any_case(&mut self, cases: &[Case], numbers: &[u8]) -> Case {
        loop {
            let case = cases[self.random.below(cases.len())];
            if numbers.iter().all(|&number| can_have(&case.sheet, number)) {
                return case;
            }
        }
    }

    /// Sheets of both kinds.
    pub(super) fn faults(&mut self) {
        let mut all = Vec::new();
        for turn in 0..CASES {
            let times = times(&mut self.random, 12);
            let mut case = model(&mut self.random, times, VARIABLES);
            shape(&mut self.random, &mut case, 0);
            if turn % 2 == 1 || case.sheet.band_count > 1 {
                all.push(case);
            }
        }
        let cases = Cases { of: "", all };
        let causes = any_of(&OF_BYTES);
        self.pairs(&cases, &causes, &pairs_of_bytes());
        self.writer_pairs(&cases, &any_of(&OF_NUMBERS), &pairs_of_numbers());
        self.cut_sheets(&cases.all);
        self.question_pairs(&cases.all);
        self.reach_pairs(&cases.all);
    }

    /// Sheets with laws.
    pub(super) fn law_faults(&mut self) {
        let cases = Cases {
            of: "BF ",
            all: (0..CASES).map(|_| followed(&mut self.random)).collect(),
        };
        let with_law = |causes: &[u8]| [any_of(causes), vec![Cause::Law]].concat();
        let behind = [7, 8, 9, 10, 11, 20, 22];
        let of_law = pairs_of_law(&OF_BYTES[..10], &behind);
        let pairs = [pairs_of_bytes(), of_law].concat();
        self.pairs(&cases, &with_law(&OF_BYTES), &pairs);
        let of_law = pairs_of_law(&OF_NUMBERS[..7], &behind[1..]);
        let pairs = [pairs_of_numbers(), of_law].concat();
        self.writer_pairs(&cases, &with_law(&OF_NUMBERS), &pairs);
        for first in with_law(&OF_BYTES) {
            for second in OF_QUESTION {
                self.sheet_and_span(&cases, first, second);
            }
        }
    }

    /// Two faults of a sheet, and a fault of a sheet beside one of the call on it.
    fn pairs(&mut self, cases: &Cases, causes: &[Cause], pairs: &[Pair]) {
        for &(first, second) in pairs {
            let kind = self.pair_of("sheet", cases, first, &second.text());
            for _ in 0..200 * PAIRS {
                if self.tally.seen(kind) >= PAIRS {
                    break;
                }
                self.two_in_sheet(kind, cases, (first, second));
            }
        }
        for &first in causes {
            for second in OF_QUESTION {
                self.sheet_and_question(cases, first, second);
            }
            for second in OF_REACH {
                self.sheet_and_reach(cases, first, second);
            }
        }
    }

    /// Two faults in the bytes of one sheet, if those that are drawn can stand together.
    fn two_in_sheet(&mut self, kind: KindId, cases: &Cases, (first, second): Pair) {
        let numbers = [first.number(), second.number()];
        let case = self.any_case(&cases.all, &numbers);
        let layout_kept = second.number() > 4;
        let one = first.in_bytes(&mut self.random, &case.sheet, layout_kept);
        let other = second.in_bytes(&mut self.random, &case.sheet, layout_kept);
        if one.rank >= other.rank || !one.apart(&other) {
            return;
        }
        let mut bytes = sheet_bytes(&case.sheet);
        one.apply(&mut bytes);
        other.apply(&mut bytes);
        if bytes_have(&bytes, &case.sheet, numbers) {
            let answer = self.any_sheet_call(&[kind], &case, &bytes);
            assert_eq!(answer.refusal(), Some(numbers[0]), "{one:?} {other:?}");
        }
    }

    /// A case with the bytes of its sheet, into which a fault was put.
    pub(super) fn faulty_sheet(&mut self, cases: &Cases, cause: Cause) -> (Case, Vec<u8>) {
        let case = self.any_case(&cases.all, &[cause.number()]);
        let mut bytes = sheet_bytes(&case.sheet);
        let fault = cause.in_bytes(&mut self.random, &case.sheet, true);
        fault.apply(&mut bytes);
        (case, bytes)
    }

    fn sheet_and_question(&mut self, cases: &Cases, first: Cause, second: u8) {
        let kind = self.pair_of("sheet and question", cases, first, &second.to_string());
        for _ in 0..PAIRS {
            let (case, bytes) = self.faulty_sheet(cases, first);
            let mut question = plain_question(&case);
            question_fault(&mut self.random, &case.sheet, second).apply(&mut question);
            let answer = self.call_decide(&[kind], &bytes, &question);
            assert_eq!(answer.refusal(), Some(first.number()));
        }
    }

    fn sheet_and_reach(&mut self, cases: &Cases, first: Cause, second: u8) {
        let kind = self.pair_of("sheet and reach", cases, first, &second.to_string());
        for _ in 0..PAIRS {
            let (case, bytes) = self.faulty_sheet(cases, first);
            let answer = self.faulty_reach(&[kind], &case, &bytes, &[second]);
            assert_eq!(answer.refusal(), Some(first.number()));
        }
    }

    pub(super) fn sheet_and_span(&mut self, cases: &Cases, first: Cause, second: u8) {
        let kind = self.pair_of("sheet and span", cases, first, &second.to_string());
        for _ in 0..PAIRS {
            let (case, bytes) = self.faulty_sheet(cases, first);
            let asked = self.faulty_span(&case, second);
            let answer = self.call_decide(&[kind], &bytes, &asked);
            assert_eq!(answer.refusal(), Some(first.number()));
        }
    }

    /// Sheets that are too short for a head, or for their length.
    fn cut_sheets(&mut self, cases: &[Case]) {
        for turn in 0..2 * PAIRS {
            let case = cases[self.random.below(cases.len())];
            let bytes = sheet_bytes(&case.sheet);
            let length = if turn % 2 == 0 {
                self.random.below(20)
            } else {
                self.random.range(20, bytes.len() as i64 - 1) as usize
            };
            self.any_sheet_call(&[self.kinds.cut_bytes], &case, &bytes[..length]);
        }
    }

    /// Two faults in one question.
    fn question_pairs(&mut self, cases: &[Case]) {
        for (first, second) in [(12, 13), (12, 14), (12, 15), (13, 14), (13, 15), (14, 15)] {
            let kind = self.pair("question", &first.to_string(), &second.to_string());
            for _ in 0..PAIRS {
                let case = cases[self.random.below(cases.len())];
                let bytes = sheet_bytes(&case.sheet);
                let mut question = plain_question(&case);
                // The length goes last, so that the other places stay.
                question_fault(&mut self.random, &case.sheet, second).apply(&mut question);
                question_fault(&mut self.random, &case.sheet, first).apply(&mut question);
                let answer = self.call_decide(&[kind], &bytes, &question);
                assert_eq!(answer.refusal(), Some(first));
            }
        }
    }

    /// Two faults in one reach; and too little room for its boxes.
    fn reach_pairs(&mut self, cases: &[Case]) {
        self.faulty_reaches(cases, &[], &[17]);
        for (place, first) in OF_REACH.into_iter().enumerate() {
            for &second in &OF_REACH[place + 1..] {
                let kind = self.pair("reach", &first.to_string(), &second.to_string());
                self.faulty_reaches(cases, &[kind], &[first, second]);
            }
        }
    }

    fn faulty_reaches(&mut self, cases: &[Case], kinds: &[KindId], faults: &[u8]) {
        for _ in 0..PAIRS {
            let case = cases[self.random.below(cases.len())];
            let bytes = sheet_bytes(&case.sheet);
            let answer = self.faulty_reach(kinds, &case, &bytes, faults);
            assert_eq!(answer.refusal(), Some(faults[0]));
        }
    }

    /// A reach with the faults of these numbers.
    fn faulty_reach(
        &mut self,
        kinds: &[KindId],
        case: &Case,
        bytes: &[u8],
        faults: &[u8],
    ) -> Answer {
        let sheet = &case.sheet;
        let n = sheet.n();
        let mut call = plain_reach(case);
        call.law = self.random.below(2) as u32;
        let mut start = expected::pairs(&case.measured, n);
        let mut room = reach_length(n);
        for fault in faults {
            match fault {
                14 => {
                    let CommandRange { least, greatest } = sheet.commands;
                    call.law = self.random.pick(&[1, 2, u32::MAX]);
                    let beyond = [least - 1, greatest + 1, i32::MIN, i32::MAX];
                    call.command = self.random.pick(&beyond);
                }
                15 => self.spoil_start(&mut start, n),
                16 => match self.random.below(3) {
                    0 => call.ticks = self.random.pick(&[1_001, 65_536, u32::MAX]),
                    1 => call.width = 0,
                    _ => call.width = self.random.pick(&[1_001, 65_537, u32::MAX]),
                },
                _ => room = self.random.below(reach_length(n)),
            }
        }
        self.call_reach(kinds, bytes, call, &start, room)
    }

    /// A start box of another length, or with a side too far out.
    fn spoil_start(&mut self, start: &mut Vec<u8>, n: usize) {
        match self.random.below(3) {
            0 => {
                start.pop();
            }
            1 => start.extend([0; 8]),
            _ => {
                let at = 8 * self.random.below(n);
                let beyond = self.random.pick(&[1_000_001, i32::MAX]);
                start[at..at + 4].copy_from_slice(&beyond.to_be_bytes());
            }
        }
    }

    /// Two faults of a sheet's numbers, and one beside too little room.
    fn writer_pairs(&mut self, cases: &Cases, causes: &[Cause], pairs: &[Pair]) {
        for &(first, second) in pairs {
            let kind = self.pair_of("writer", cases, first, &second.text());
            for _ in 0..200 * PAIRS {
                if self.tally.seen(kind) >= PAIRS {
                    break;
                }
                self.two_in_numbers(kind, cases, (first, second));
            }
        }
        for &first in causes {
            let kind = self.pair_of("writer", cases, first, "17");
            self.writes_without_room(&cases.all, &[kind], Some(first));
        }
        self.writes_without_room(&cases.all, &[], None);
    }

    /// Two faults in the numbers of one sheet, if those that are drawn can stand together.
    fn two_in_numbers(&mut self, kind: KindId, cases: &Cases, (first, second): Pair) {
        let of = [first.number(), second.number()];
        let case = self.any_case(&cases.all, &of);
        let layout_kept = second.number() > 4;
        let one = first.in_numbers(&mut self.random, &case.sheet, layout_kept);
        let other = second.in_numbers(&mut self.random, &case.sheet, layout_kept);
        if one.rank >= other.rank || !one.apart(&other) {
            return;
        }
        let mut numbers = case.sheet.numbers();
        one.put(&mut numbers);
        other.put(&mut numbers);
        if values_have(&Sheet::from_numbers(&numbers), &case.sheet, of) {
            let answer = self.call_write(&[kind], &numbers, LONGEST_SHEET + 9, 9);
            assert_eq!(answer.refusal(), Some(of[0]), "{one:?} {other:?}");
        }
    }

    /// Too little room from the named place, alone or behind a fault of the numbers.
    fn writes_without_room(&mut self, cases: &[Case], kinds: &[KindId], cause: Option<Cause>) {
        let number = cause.map_or(17, Cause::number);
        for _ in 0..PAIRS {
            let case = self.any_case(cases, &[number]);
            let mut numbers = case.sheet.numbers();
            if let Some(cause) = cause {
                let fault = cause.in_numbers(&mut self.random, &case.sheet, true);
                fault.put(&mut numbers);
            }
            let length = case.sheet.length() as u64;
            let (room, place) = match self.random.below(6) {
                0 => (length - 1, 0),
                1 => (length + 10, 11),
                2 => (length, u64::MAX),
                3 => (length, u64::MAX - length + 1),
                4 => (length, length + self.random.bits() % 1_000),
                _ => (0, 0),
            };
            let answer = self.call_write(kinds, &numbers, room as usize, place);
            assert_eq!(answer.refusal(), Some(number));
        }
    }
}
