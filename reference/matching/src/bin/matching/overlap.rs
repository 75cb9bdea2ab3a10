//! Recovery boxes on unsafe boxes and beside them (document 02, paper 8). Of the values that are valid
//! but for this test the second guard's engine is asked without it: the recovery check fails at width
//! 1, and each of its attempts at its first step.

use super::Matching;
use matching::archive;
use matching::archive::format::{slot_unsafe, NUMBERS, SLOT_RECOVERY, VARIABLES};
use matching::generate::{
    bytes_as_they_are, everyday, set_in_order, sheet_bytes, slow_growth, Case,
};
use matching::overlap::{
    any_sharing, beside, moved_beside, on_recovery, sharing, with_box, Sharing, Steps, SHARINGS,
};
use matching::tally::{hex, KindId, Tally};
use second_guard::boxes::StateBox;
use second_guard::decision::{check_recovery_watched, RecoveryCheck};
use second_guard::sheet::{Sheet, UNSAFE_BOXES};

/// How many sheets a box is put on and beside, in each way.
const OVERLAP_SHEETS: usize = 6_000;

/// Which of the unsafe boxes is on the recovery box, and no other.
const ALONE: [&str; 4] = [
    "the only box",
    "the first box",
    "a middle box",
    "the last box",
];

pub(super) struct Kinds {
    read: [KindId; SHARINGS.len()],
    write: [KindId; SHARINGS.len()],
    alone: [KindId; ALONE.len()],
    several: KindId,
    beyond_n: KindId,
    read_beside: [KindId; VARIABLES],
    written_beside: [KindId; VARIABLES],
    beyond_count: KindId,
    checks: KindId,
    checks_by: [KindId; SHARINGS.len()],
    several_widths: KindId,
    halved: KindId,
    later: KindId,
    passes: KindId,
}

impl Kinds {
    pub(super) fn new(tally: &mut Tally) -> Kinds {
        let mut by_sharing = |call: &str, least: u64| {
            SHARINGS.map(|of| tally.kind(format!("{call}: {}", of.text()), least))
        };
        let read = by_sharing("read, refused by 22", 2_000);
        let write = by_sharing("write refused by 22", 2_000);
        let checks_by = by_sharing("without the test", 2_000);
        let mut by_variable = |call: &str| {
            let name = |i: usize| format!("{call}, a box beside recovery in variable {}", i + 1);
            std::array::from_fn(|i| tally.kind(name(i), 300))
        };
        let (read_beside, written_beside) = (by_variable("read"), by_variable("written"));
        Kinds {
            read,
            write,
            checks_by,
            read_beside,
            written_beside,
            alone: ALONE.map(|of| tally.kind(format!("refused by 22: {of} alone"), 500)),
            several: tally.kind("refused by 22: several boxes", 500),
            beyond_n: tally.kind("write refused by 22: other sides beyond n", 1_000),
            beyond_count: tally.kind("written: boxes beyond the count on recovery", 500),
            checks: tally.kind("without the test: recovery checks", 10_000),
            several_widths: tally.kind("without the test: at several widths", 8_000),
            halved: tally.kind("without the test: a first step halves", 100),
            later: tally.kind("beside recovery: an attempt comes to a second step", 1_000),
            passes: tally.kind("beside recovery: the check passes", 200),
        }
    }
}

impl Matching {
    /// Boxes on the recovery box in each way, and boxes beside it.
    pub(super) fn overlap(&mut self) {
        for turn in 0..OVERLAP_SHEETS {
            let case = match turn % 4 {
                0 => slow_growth(&mut self.random),
                _ => everyday(&mut self.random).case,
            };
            for wanted in SHARINGS {
                let Some(sides) = any_sharing(&mut self.random, &case.sheet, wanted) else {
                    continue;
                };
                let mut values = with_box(&mut self.random, &case.sheet, sides);
                if self.random.percent(20) {
                    add_recovery(&mut values);
                }
                let bytes = bytes_as_they_are(&values);
                self.refused_overlap(&case, &values, &bytes, wanted);
                self.without_the_test(&values, &bytes, wanted);
                let moved = moved_beside(&mut self.random, &sides, &case.sheet);
                self.clear_sheet(&case.sheet, moved);
            }
        }
    }

    /// Reading and writing are refused.
    fn refused_overlap(&mut self, case: &Case, values: &Sheet, bytes: &[u8], of: Sharing) {
        let kinds = [self.kinds.overlap.read[of.place()], self.alone(values)];
        let answer = self.any_sheet_call(&kinds, case, bytes);
        assert_eq!(answer.refusal(), Some(22));
        let mut numbers = values.numbers();
        let mut kinds = vec![self.kinds.overlap.write[of.place()]];
        if self.fill_beyond_n(values, &mut numbers) {
            kinds.push(self.kinds.overlap.beyond_n);
        }
        let answer = self.call_write(&kinds, &numbers, bytes.len(), 0);
        assert_eq!(answer.refusal(), Some(22));
    }

    /// The kind of which box is on the recovery box.
    fn alone(&self, values: &Sheet) -> KindId {
        let (kinds, last) = (&self.kinds.overlap, values.unsafe_boxes().len() - 1);
        match on_recovery(values)[..] {
            [0] if last == 0 => kinds.alone[0],
            [0] => kinds.alone[1],
            [j] if j < last => kinds.alone[2],
            [_] => kinds.alone[3],
            _ => kinds.several,
        }
    }

    /// The second guard's recovery check of the values: each attempt fails at its first step. The
    /// archive refuses the sheet.
    fn without_the_test(&mut self, values: &Sheet, bytes: &[u8], of: Sharing) {
        let mut steps = Steps::default();
        let check = check_recovery_watched(values, &mut steps);
        let fails = steps.are_first_steps(values) && steps.are_all_of(check);
        let refused = archive::recovery(bytes).refusal() == Some(22);
        let kinds = &self.kinds.overlap;
        let mut seen = vec![kinds.checks_by[of.place()]];
        seen.extend((values.rho > 1).then_some(kinds.several_widths));
        seen.extend(steps.halved.then_some(kinds.halved));
        for kind in seen {
            self.tally.saw(kind);
        }
        self.tally.check(kinds.checks, fails && refused, || {
            format!("{check:?} {fails} {refused}: {}", hex(bytes))
        });
    }

    /// The sheet with a box that is clear of the recovery box: it is read and written, also with boxes
    /// on the recovery box beyond the count.
    fn clear_sheet(&mut self, sheet: &Sheet, sides: StateBox) {
        assert_eq!(sharing(&sides, &sheet.recovery, sheet.n()), None);
        let values = with_box(&mut self.random, sheet, sides);
        let bytes = sheet_bytes(&values);
        let variable = beside(&sides, &values.recovery, values.n());
        let of = |kinds: &[KindId]| variable.map(|i| kinds[i]).into_iter().collect::<Vec<_>>();
        let read = of(&self.kinds.overlap.read_beside);
        let mut written = of(&self.kinds.overlap.written_beside);
        let answer = self.call_read(&read, &bytes);
        assert_eq!(answer.refusal(), None);
        let mut numbers = values.numbers();
        self.fill_beyond_n(&values, &mut numbers);
        if fill_beyond_count(&values, &mut numbers) {
            written.push(self.kinds.overlap.beyond_count);
        }
        let answer = self.call_write(&written, &numbers, bytes.len(), 0);
        assert_eq!(answer.refusal(), None);
        self.check_of_clear_sheet(&values, &bytes);
    }

    /// Its recovery check may pass, and an attempt may come further than to its first step.
    fn check_of_clear_sheet(&mut self, values: &Sheet, bytes: &[u8]) {
        let mut steps = Steps::default();
        let check = check_recovery_watched(values, &mut steps);
        let kinds = &self.kinds.overlap;
        let passes = matches!(check, RecoveryCheck::Pass { .. }).then_some(kinds.passes);
        let later = (!steps.are_first_steps(values)).then_some(kinds.later);
        let seen: Vec<KindId> = passes.into_iter().chain(later).collect();
        self.call_recovery(&seen, bytes);
    }
}

/// Adds the recovery box itself to the unsafe boxes, where there is room.
fn add_recovery(sheet: &mut Sheet) {
    let count = sheet.unsafe_boxes().len();
    if count < UNSAFE_BOXES {
        sheet.unsafe_boxes[count] = sheet.recovery;
        sheet.unsafe_count += 1;
        set_in_order(sheet);
    }
}

/// Puts the recovery box in the place of all unsafe boxes beyond the count, where there are such.
fn fill_beyond_count(sheet: &Sheet, numbers: &mut [i32; NUMBERS]) -> bool {
    let count = sheet.unsafe_boxes().len();
    for j in count..UNSAFE_BOXES {
        numbers.copy_within(SLOT_RECOVERY..SLOT_RECOVERY + 2 * VARIABLES, slot_unsafe(j));
    }
    count < UNSAFE_BOXES
}
