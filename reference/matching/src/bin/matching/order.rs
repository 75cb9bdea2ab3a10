//! Unsafe boxes in order and out of it (document 02, paper 2), and the same boxes in another order,
//! of which the second guard's engine is asked without that test.

use super::Matching;
use matching::archive::format::{slot_unsafe, NUMBERS, SLOT_RECOVERY, VARIABLES};
use matching::archive::{self, Answer};
use matching::generate::{
    bytes_as_they_are, bytes_of, everyday, model, question_near, record, set_in_order, shape,
    sheet_bytes, times, Case,
};
use matching::order::{difference, not_greater, shuffled, Difference, LastSwept, DIFFERENCES};
use matching::tally::{hex, KindId, Tally};
use second_guard::boxes::StateBox;
use second_guard::decision::{
    check_recovery_watched, decide_watched, Decision, Faults, Question, RecoveryCheck,
};
use second_guard::sheet::{CommandRange, Sheet, UNSAFE_BOXES};

/// How many sheets with boxes in order and out of it, and how many whose boxes are shuffled; orders
/// of each of these, and questions in each order.
const ORDER_SHEETS: usize = 4_000;
const SHUFFLED_SHEETS: usize = 5_000;
const ORDERS: usize = 3;
const NEAR: usize = 3;

/// A fault besides a record that is not greater than the one before: where it stands, whether it is
/// the mark, and the refusal.
#[derive(Clone, Copy, PartialEq)]
enum Beside {
    Before,
    Own,
    Next,
    Recovery,
}

const BESIDE: [(Beside, bool, u8, &str); 8] = [
    (Beside::Before, true, 7, "the mark before"),
    (Beside::Before, false, 11, "a side before"),
    (Beside::Own, true, 7, "its own mark"),
    (Beside::Own, false, 11, "its own side"),
    (Beside::Next, true, 20, "the next mark"),
    (Beside::Next, false, 20, "the next side"),
    (Beside::Recovery, true, 20, "the recovery mark"),
    (Beside::Recovery, false, 20, "a recovery side"),
];

/// A kind for each difference of neighbors, for one call; no equal ones are accepted.
type OfNeighbors = Vec<KindId>;

pub(super) struct Kinds {
    read: OfNeighbors,
    read_refused: OfNeighbors,
    written: OfNeighbors,
    write_refused: OfNeighbors,
    beyond_n: KindId,
    beyond_n_refused: KindId,
    beside: [KindId; BESIDE.len()],
    decisions: KindId,
    keep: KindId,
    finest_at_box: KindId,
    finest_at_later_box: KindId,
    finest_else: KindId,
    spent: KindId,
    checks: KindId,
    pass: KindId,
    fail_at_box: KindId,
    fail_else: KindId,
}

fn of_neighbors(tally: &mut Tally, call: &str, differences: &[Difference]) -> OfNeighbors {
    let name = |difference: &Difference| format!("{call}: {}", difference.text());
    let kinds = differences.iter().map(|of| tally.kind(name(of), 1_000));
    kinds.collect()
}

impl Kinds {
    pub(super) fn new(tally: &mut Tally) -> Kinds {
        let beside = |tally: &mut Tally, fault: &str, number: u8| {
            tally.kind(format!("out of order and {fault}: {number}"), 200)
        };
        Kinds {
            read: of_neighbors(tally, "read in order", &DIFFERENCES[..3]),
            read_refused: of_neighbors(tally, "read, refused by 20", &DIFFERENCES),
            written: of_neighbors(tally, "written in order", &DIFFERENCES[..3]),
            write_refused: of_neighbors(tally, "write refused by 20", &DIFFERENCES),
            beyond_n: tally.kind("written in order: other sides beyond n", 1_000),
            beyond_n_refused: tally.kind("write refused by 20: other sides beyond n", 1_000),
            beside: BESIDE.map(|(_, _, number, fault)| beside(tally, fault, number)),
            decisions: tally.kind("another order: decisions", 50_000),
            keep: tally.kind("another order: keep", 2_000),
            finest_at_box: tally.kind("another order: finest at an unsafe box", 2_000),
            finest_at_later_box: tally.kind("another order: finest, the first box not met", 2_000),
            finest_else: tally.kind("another order: finest outside recovery", 2_000),
            spent: tally.kind("another order: spent", 2_000),
            checks: tally.kind("another order: recovery checks", 10_000),
            pass: tally.kind("another order: recovery check passes", 200),
            fail_at_box: tally.kind("another order: check fails at an unsafe box", 200),
            fail_else: tally.kind("another order: check fails outside recovery", 200),
        }
    }
}

/// The place of a difference among the kinds.
fn place(of: Difference) -> usize {
    let place = DIFFERENCES.iter().position(|&difference| difference == of);
    place.expect("one of them")
}

impl Matching {
    /// A case with two unsafe boxes or more.
    fn case_of_boxes(&mut self) -> Case {
        loop {
            let times = times(&mut self.random, 12);
            let mut case = model(&mut self.random, times, VARIABLES);
            shape(&mut self.random, &mut case, 0);
            if case.sheet.unsafe_count > 1 {
                return case;
            }
        }
    }

    /// Boxes in order, and out of it in each kind of side, by reading and by writing.
    pub(super) fn order(&mut self) {
        for _ in 0..ORDER_SHEETS {
            let mut case = self.case_of_boxes();
            let n = case.sheet.n();
            for wanted in DIFFERENCES {
                let j = 1 + self.random.below(case.sheet.unsafe_count as usize - 1);
                let before = case.sheet.unsafe_boxes[j - 1];
                let Some(less) = not_greater(&mut self.random, &before, n, wanted) else {
                    continue;
                };
                self.out_of_order(&case, j, less);
                if !less.meets(&case.sheet.recovery) {
                    add_in_order(&mut case.sheet, j, less);
                    self.in_order(&case);
                }
            }
        }
    }

    /// Accepted boxes, each pair of neighbors counted by its difference.
    fn in_order(&mut self, case: &Case) {
        let (sheet, n) = (&case.sheet, case.sheet.n());
        let neighbors = sheet.unsafe_boxes().windows(2);
        let places: Vec<usize> = neighbors
            .map(|pair| place(difference(&pair[0], &pair[1], n)))
            .collect();
        let bytes = sheet_bytes(sheet);
        let read: Vec<KindId> = places.iter().map(|&p| self.kinds.order.read[p]).collect();
        let answer = self.call_read(&read, &bytes);
        assert_eq!(answer.refusal(), None);
        let mut kinds: Vec<KindId> = places
            .iter()
            .map(|&place| self.kinds.order.written[place])
            .collect();
        let mut numbers = sheet.numbers();
        if self.fill_beyond_n(sheet, &mut numbers) {
            kinds.push(self.kinds.order.beyond_n);
        }
        let answer = self.call_write(&kinds, &numbers, bytes.len() + 9, 4);
        assert_eq!(answer.refusal(), None);
    }

    /// Box j with these sides, which are not greater than those before.
    fn out_of_order(&mut self, case: &Case, j: usize, sides: StateBox) {
        let mut sheet = case.sheet;
        sheet.unsafe_boxes[j] = sides;
        let place = place(difference(&sheet.unsafe_boxes[j - 1], &sides, sheet.n()));
        let bytes = bytes_as_they_are(&sheet);
        let kind = self.kinds.order.read_refused[place];
        let answer = self.any_sheet_call(&[kind], case, &bytes);
        assert_eq!(answer.refusal(), Some(20));
        let mut kinds = vec![self.kinds.order.write_refused[place]];
        let mut numbers = sheet.numbers();
        if self.fill_beyond_n(&sheet, &mut numbers) {
            kinds.push(self.kinds.order.beyond_n_refused);
        }
        let answer = self.call_write(&kinds, &numbers, bytes.len(), 0);
        assert_eq!(answer.refusal(), Some(20));
        self.beside(case, &sheet, j, &bytes);
    }

    /// Puts any numbers into the slots of sides beyond n, in every second case.
    pub(super) fn fill_beyond_n(&mut self, sheet: &Sheet, numbers: &mut [i32; NUMBERS]) -> bool {
        let n = sheet.n();
        if n == VARIABLES || self.random.percent(50) {
            return false;
        }
        for slot in (0..UNSAFE_BOXES).map(slot_unsafe).chain([SLOT_RECOVERY]) {
            let slots = &mut numbers[slot..][..2 * VARIABLES];
            for side in slots.chunks_mut(VARIABLES).flat_map(|of| &mut of[n..]) {
                *side = self.random.bits() as i32;
            }
        }
        true
    }

    /// The same bytes, record j out of order, with one more fault.
    fn beside(&mut self, case: &Case, sheet: &Sheet, j: usize, bytes: &[u8]) {
        let fault = self.random.below(BESIDE.len());
        let (beside, is_mark, number, _) = BESIDE[fault];
        let boxes = sheet.unsafe_boxes().len();
        let faulty = match beside {
            Beside::Before => j - 1,
            Beside::Own => j,
            Beside::Next => j + 1,
            Beside::Recovery => boxes,
        };
        if beside == Beside::Next && faulty == boxes {
            return;
        }
        let (mut bytes, from) = (bytes.to_vec(), record(sheet, faulty));
        if is_mark {
            bytes[from + self.random.below(2)] ^= 1 << self.random.below(8);
        } else {
            let at = from + 2 + 4 * self.random.below(2 * sheet.n());
            let beyond = self.random.pick(&[-2_000_001, 2_000_001, i32::MIN]);
            bytes[at..at + 4].copy_from_slice(&beyond.to_be_bytes());
        }
        let kind = self.kinds.order.beside[fault];
        let answer = self.any_sheet_call(&[kind], case, &bytes);
        assert_eq!(answer.refusal(), Some(number));
    }

    /// The same boxes in other orders: recovery check and decisions are those of the sheet.
    pub(super) fn other_orders(&mut self) {
        let mut sheets = 0;
        while sheets < SHUFFLED_SHEETS {
            let case = everyday(&mut self.random).case;
            if case.sheet.unsafe_count == 1 {
                continue;
            }
            sheets += 1;
            let bytes = sheet_bytes(&case.sheet);
            for _ in 0..ORDERS {
                let other = shuffled(&mut self.random, &case.sheet);
                self.other_check(&other, &bytes);
                self.other_decisions(&case, &other, &bytes);
            }
        }
    }

    fn other_check(&mut self, other: &Sheet, bytes: &[u8]) {
        let mut last = LastSwept::default();
        let check = check_recovery_watched(other, &mut last);
        let kinds = &self.kinds.order;
        let kind = match check {
            RecoveryCheck::Pass { .. } => kinds.pass,
            _ if !last.met(other).is_empty() => kinds.fail_at_box,
            _ => kinds.fail_else,
        };
        let (wanted, found) = (Answer(check.pack()), archive::recovery(bytes));
        self.note(&[kinds.checks, kind], wanted, wanted == found, || {
            format!("recovery check in another order: {}", hex(bytes))
        });
    }

    /// The question that the boxes are placed for, and some near it.
    fn other_decisions(&mut self, case: &Case, other: &Sheet, bytes: &[u8]) {
        let mut question = Question {
            allowance: 1_000_000,
            span: CommandRange::one(case.command),
            measured: case.measured,
        };
        for _ in 0..=NEAR {
            self.other_decision(other, bytes, &question);
            question = question_near(&mut self.random, case);
        }
    }

    fn other_decision(&mut self, other: &Sheet, bytes: &[u8], question: &Question) {
        let mut last = LastSwept::default();
        let decision = decide_watched(other, question, Faults::default(), &mut last);
        let order = &self.kinds.order;
        let met = last.met(other);
        let mut kinds = vec![order.decisions];
        kinds.push(match decision {
            Decision::Keep { .. } => order.keep,
            Decision::Finest { .. } if !met.is_empty() => order.finest_at_box,
            Decision::Finest { .. } => order.finest_else,
            _ => order.spent,
        });
        if matches!(decision, Decision::Finest { .. }) && met.first().is_some_and(|&j| j > 0) {
            kinds.push(order.finest_at_later_box);
        }
        let asked = bytes_of(question, other.n());
        let (wanted, found) = (Answer(decision.pack()), archive::decide(bytes, &asked));
        self.note(&kinds, wanted, wanted == found, || {
            format!("decision in another order: {} {}", hex(bytes), hex(&asked))
        });
    }
}

/// Puts a box among the others in order; where there is no room, in the place of box j.
fn add_in_order(sheet: &mut Sheet, j: usize, sides: StateBox) {
    let count = sheet.unsafe_boxes().len();
    let at = if count < UNSAFE_BOXES { count } else { j };
    sheet.unsafe_boxes[at] = sides;
    sheet.unsafe_count = (at + 1).max(count) as i32;
    set_in_order(sheet);
}
