//! Cases of document 02 worked by hand.
//! Paper 2: no-go records ascend strictly, and their order changes no answer.
//! Paper 3: each band's row is bounded over the part of the neighborhood that lies in that band.
//! Paper 4: a question `QR` is about a span of commands, and the program cuts its file by mark.
//! Paper 6: a change is compared with its cap first and divided only strictly between.
//! Paper 8: a recovery box that shares a state with a no-go box is refused, and would fail its check.
//! Paper 9: up to six variables, and bands `BF` whose plain commands follow the state.

use second_guard::boxes::{State, StateBox, VARIABLES};
use second_guard::changes::{Change, CommandEnd, End, Place};
use second_guard::decision::{
    check_recovery, check_recovery_watched, decide, decide_watched, question_length, read_question,
    trace, trace_recovery, Bounded, Decision, Faults, Question, RecoveryCheck,
};
use second_guard::listing::{listing, questions};
use second_guard::machine::{
    allowed_change, ceil_div, floor_div, greatest_change, greatest_so_far, least_change,
    least_so_far, plain_commands, Clamp,
};
use second_guard::neighborhoods::Face;
use second_guard::reach::{advance, reach, Budget, Law, NoWatch, Reach, Step, Watch};
use second_guard::rules::Rule;
use second_guard::sheet::{
    self, Band, BandLaw, CommandRange, Kind, Refusal, Row, Sheet, BANDS, FIRST_EDGE, UNSAFE_BOXES,
};
use second_guard::whole::WholeNeighborhoods;
use std::ops::ControlFlow;

/// These numbers, and 0 for the variables beyond them.
fn padded<T: Copy + Default, const M: usize>(first: [T; M]) -> [T; VARIABLES] {
    let mut all = [T::default(); VARIABLES];
    all[..M].copy_from_slice(&first);
    all
}

/// The box of two variables.
fn sides(x: (i64, i64), z: (i64, i64)) -> StateBox {
    StateBox {
        lower: padded([x.0, z.0]),
        upper: padded([x.1, z.1]),
    }
}

/// A row of two variables without command and spread.
fn row(a: [i32; 2], c: i32, q: i32) -> Row {
    Row {
        a: padded(a),
        b: 0,
        c,
        d: 0,
        q,
    }
}

/// x and z with caps 5 and 5; z is the band variable. Each band has its edge and x's row and z's.
fn machine(bands: &[(i32, Row, Row)]) -> Sheet {
    let mut sheet = Sheet {
        variables: 2,
        band_count: bands.len() as i32,
        unsafe_count: 1,
        band_variable: 1,
        delta: 1,
        alpha: 1,
        rho: 1,
        caps: padded([5, 5]),
        recovery: sides((-10, 100), (-10, 100)),
        ..Sheet::default()
    };
    for (k, &(edge, x, z)) in bands.iter().enumerate() {
        sheet.bands[k] = Band {
            edge,
            rows: padded([x, z]),
            ..Band::default()
        };
    }
    sheet.unsafe_boxes[0] = sides((1_000, 1_000), (1_000, 1_000));
    sheet
}

// ---- Paper 2

/// The box with these sides.
fn box_of(pairs: &[(i64, i64)]) -> StateBox {
    let mut sides = StateBox::default();
    for (i, &(lower, upper)) in pairs.iter().enumerate() {
        (sides.lower[i], sides.upper[i]) = (lower, upper);
    }
    sides
}

/// A machine of n variables that do not move, with these no-go boxes and a recovery box far below.
fn still(n: usize, boxes: &[StateBox]) -> Sheet {
    let mut sheet = machine(&[(FIRST_EDGE, STILL, STILL)]);
    sheet.variables = n as i32;
    sheet.band_variable = 0;
    sheet.caps = [5; VARIABLES];
    sheet.bands[0].rows = [STILL; VARIABLES];
    sheet.recovery = box_of(&[(-1_000, -900); VARIABLES]);
    sheet.unsafe_count = boxes.len() as i32;
    sheet.unsafe_boxes[..boxes.len()].copy_from_slice(boxes);
    sheet
}

/// Where no-go record j begins, and after the last one the recovery record.
fn record(sheet: &Sheet, j: usize) -> usize {
    let records = sheet.unsafe_boxes().len() + 1;
    sheet.length() - (2 + 8 * sheet.n()) * (records - j)
}

/// The sheet's bytes, with the no-go boxes and the recovery box as they are.
fn bytes_of(sheet: &Sheet) -> Vec<u8> {
    let (n, mut ascending) = (sheet.n(), *sheet);
    for (j, sides) in (0..).zip(&mut ascending.unsafe_boxes) {
        *sides = box_of(&[(j, j); VARIABLES]);
    }
    ascending.recovery = box_of(&[(-1, -1); VARIABLES]);
    let mut bytes = vec![0; sheet.length()];
    sheet::write(&ascending, &mut bytes, 0).expect("ascending boxes");
    let boxes = sheet.unsafe_boxes().iter().chain([&sheet.recovery]);
    for (j, sides) in boxes.enumerate() {
        let pairs = (0..n).flat_map(|i| [sides.lower[i] as i32, sides.upper[i] as i32]);
        let pairs: Vec<u8> = pairs.flat_map(i32::to_be_bytes).collect();
        let at = record(sheet, j) + 2;
        bytes[at..at + 8 * n].copy_from_slice(&pairs);
    }
    bytes
}

/// By which number reader and writer refuse the sheet; 0 is none.
fn refusal(sheet: &Sheet) -> u8 {
    let number = |refusal: Option<Refusal>| refusal.map_or(0, Refusal::number);
    let bytes = bytes_of(sheet);
    let mut buffer = vec![7; bytes.len() + 2];
    let read = number(sheet::read(&bytes).err());
    let written = number(sheet::write(sheet, &mut buffer, 1).err());
    assert_eq!(read, written);
    let whole = [&[7], &bytes[..], &[7]].concat();
    let left = vec![7; bytes.len() + 2];
    assert_eq!(buffer, if written == 0 { whole } else { left });
    read
}

#[test]
fn ascending_boxes_are_accepted() {
    let of = |pairs: &[(i64, i64)]| pairs.iter().map(|&pair| box_of(&[pair])).collect();
    let ascending: [Vec<StateBox>; 4] = [
        of(&[(2_000_000, 2_000_000)]),
        of(&[(-2_000_000, -2_000_000), (2_000_000, 2_000_000)]),
        of(&[(1, 1), (1, 2), (1, 9), (2, 2), (2, 5), (3, 3)]),
        (0..8).map(|j| box_of(&[(0, 9), (0, 9 + j)])).collect(),
    ];
    for (boxes, n) in ascending.iter().zip([1, 1, 1, 2]) {
        assert_eq!(refusal(&still(n, boxes)), 0);
    }
}

#[test]
fn equal_boxes_are_refused() {
    for n in 1..=VARIABLES {
        let (low, high) = (
            box_of(&[(1, 2); VARIABLES][..n]),
            box_of(&[(3, 3); VARIABLES][..n]),
        );
        for boxes in [vec![low, low], vec![low, high, high], vec![high; 8]] {
            assert_eq!(refusal(&still(n, &boxes)), 20);
        }
    }
}

/// The box with a number added to one side: lower and upper side of each variable in turn.
fn with_side(mut sides: StateBox, side: usize, more: i64) -> StateBox {
    let (i, upper) = (side / 2, side % 2 == 1);
    let of = if upper {
        &mut sides.upper
    } else {
        &mut sides.lower
    };
    of[i] += more;
    sides
}

#[test]
fn one_side_decides() {
    for n in 1..=VARIABLES {
        let base = box_of(&[(10, 20); VARIABLES][..n]);
        for side in 0..2 * n {
            let greater = with_side(base, side, 1);
            assert_eq!(refusal(&still(n, &[base, greater])), 0);
            assert_eq!(refusal(&still(n, &[greater, base])), 20);
        }
    }
}

#[test]
fn the_first_differing_side_decides() {
    for n in 1..=VARIABLES {
        let base = box_of(&[(10, 20); VARIABLES][..n]);
        for side in 0..2 * n {
            // All sides after it are less.
            let later = side + 1..2 * n;
            let greater = later.fold(with_side(base, side, 1), |sides, s| with_side(sides, s, -5));
            assert_eq!(refusal(&still(n, &[base, greater])), 0);
            assert_eq!(refusal(&still(n, &[greater, base])), 20);
        }
    }
}

#[test]
fn every_record_is_compared_with_the_one_before() {
    let of = |numbers: &[i64]| {
        let boxes: Vec<StateBox> = numbers.iter().map(|&x| box_of(&[(x, 50)])).collect();
        refusal(&still(1, &boxes))
    };
    assert_eq!(of(&[1, 2, 3]), 0);
    assert_eq!(of(&[1, 3, 2]), 20);
    assert_eq!(of(&[2, 1, 3]), 20);
    assert_eq!(of(&[2, 3, 1]), 20);
    for j in 1..8 {
        // The one at j is less than the one before, and greater than all others before.
        let mut numbers = [0, 4, 8, 12, 16, 20, 24, 28];
        numbers[j] = numbers[j - 1] - 1;
        assert_eq!(of(&numbers), 20);
    }
}

#[test]
fn sides_beyond_n_are_not_looked_at() {
    let sheet = |n, boxes: &[[(i64, i64); 4]]| {
        let boxes: Vec<StateBox> = boxes.iter().map(|pairs| box_of(pairs)).collect();
        let sheet = still(n, &boxes);
        let mut bytes = vec![0; sheet.length()];
        sheet::write(&sheet, &mut bytes, 0).map_err(Refusal::number)
    };
    let (far, near) = ((i64::from(i32::MAX), i64::from(i32::MIN)), (0, 0));
    let less = [(1, 2), (3, 4), far, far];
    let more = [(1, 2), (3, 5), near, near];
    assert!(sheet(2, &[less, more]).is_ok());
    assert_eq!(sheet(2, &[more, less]), Err(20));
    // Equal up to n.
    let same = [(1, 2), (3, 4), near, near];
    assert_eq!(sheet(2, &[same, less]), Err(20));
    assert_eq!(sheet(2, &[less, same]), Err(20));
    // The fourth variable counts where n is 4.
    let (third, fourth) = (
        [(1, 2), (3, 4), (5, 6), (7, 8)],
        [(1, 2), (3, 4), (5, 6), (7, 9)],
    );
    assert!(sheet(4, &[third, fourth]).is_ok());
    assert_eq!(sheet(3, &[third, fourth]), Err(20));
}

/// Three ascending boxes of two variables. The recovery box is clear of them by the first variable.
fn sheet_of_three() -> Sheet {
    let mut sheet = still(2, &[10, 20, 30].map(|x| box_of(&[(x, 50), (0, 9)])));
    sheet.recovery = sides((-1_000, -900), (-5, 5));
    sheet
}

/// Other bytes at a place, and the refusal.
type Damage = (u8, usize, Vec<u8>);

/// Damages of that sheet in the order in which they are found. One of 5 adds a byte. One of 20 is a
/// first lower side below all others, that of 22 the recovery box's first upper side at the first box.
fn damages() -> Vec<Damage> {
    let sheet = sheet_of_three();
    let int = |value: i32| value.to_be_bytes().to_vec();
    let band = record(&sheet, 0) - 46;
    let mut list = vec![
        (1, 0, b"XH".to_vec()),
        (2, 5, vec![2]),
        (3, 10, vec![0, 0]),
        (4, 16, int(10_001)),
        (5, 0, Vec::new()),
        (6, 22, vec![3, 233]),
        (7, band, b"NG".to_vec()),
        (8, band + 2, int(0)),
        (9, band + 6, int(1)),
        (10, band + 14 + 16 + 2, vec![3, 233]),
    ];
    for j in 0..4 {
        let at = record(&sheet, j);
        list.push((7, at, b"XX".to_vec()));
        list.push((11, at + 14, int(2_000_001)));
        if (1..3).contains(&j) {
            list.push((20, at + 2, int(-100 - j as i32)));
        }
    }
    list.push((22, record(&sheet, 3) + 6, int(10)));
    list
}

fn damaged(damages: &[&Damage]) -> u8 {
    let mut bytes = bytes_of(&sheet_of_three());
    for (_, at, new) in damages {
        bytes[*at..at + new.len()].copy_from_slice(new);
    }
    if damages.iter().any(|damage| damage.0 == 5) {
        bytes.push(0);
    }
    sheet::read(&bytes).err().map_or(0, Refusal::number)
}

#[test]
fn the_readers_order_of_refusals() {
    let damages = damages();
    assert_eq!(damaged(&[]), 0);
    let mut pairs = Vec::new();
    for (i, first) in damages.iter().enumerate() {
        assert_eq!(damaged(&[first]), first.0);
        for second in &damages[i + 1..] {
            assert_eq!(damaged(&[first, second]), first.0, "{first:?} {second:?}");
            pairs.push([first.0, second.0]);
        }
    }
    let with = |number| pairs.iter().filter(|pair| pair.contains(&number)).count();
    // Each of the two of 20 with each of the 19 others, and the two together; that of 22 with all.
    assert_eq!((damages.len(), with(20), with(22)), (21, 2 * 19 + 1, 20));
}

#[test]
fn marks_and_sides_around_20() {
    // Records 2 and 3 and the recovery record: mark, sides, order.
    let all = damages();
    let of = |j: usize, number: u8| {
        let from = record(&sheet_of_three(), j);
        let mut records = all
            .iter()
            .filter(|(_, at, _)| (from..from + 18).contains(at));
        records.find(|damage| damage.0 == number).expect("a damage")
    };
    assert_eq!(damaged(&[of(1, 7), of(1, 20)]), 7);
    assert_eq!(damaged(&[of(1, 11), of(1, 20)]), 11);
    assert_eq!(damaged(&[of(1, 20), of(2, 7)]), 20);
    assert_eq!(damaged(&[of(1, 20), of(2, 11)]), 20);
    assert_eq!(damaged(&[of(2, 20), of(3, 7)]), 20);
    assert_eq!(damaged(&[of(2, 20), of(3, 11)]), 20);
    assert_eq!(damaged(&[of(0, 11), of(1, 20)]), 11);
    assert_eq!(damaged(&[of(1, 11), of(2, 20)]), 11);
}

/// A number put into a slot of the values, and the refusal, in the order in which they are found.
fn wrong_numbers() -> Vec<(u8, usize, i32)> {
    const BAND: usize = 15;
    const FIRST_ROW: usize = BAND + 11;
    const RECOVERY: usize = 583;
    const BOXES: usize = 595;
    // The lower sides, then the upper ones.
    const BOX: usize = 12;
    const UPPER: usize = 6;
    let mut list = vec![
        (2, 3, 2),
        (3, 6, 0),
        (4, 8, 10_001),
        (6, 10, 1_001),
        (8, BAND, 0),
        (9, BAND + 1, 1),
        (10, FIRST_ROW, 1_001),
    ];
    for j in 0..3 {
        list.push((11, BOXES + BOX * j + UPPER + 1, 2_000_001));
        if j > 0 {
            list.push((20, BOXES + BOX * j, -100 - j as i32));
        }
    }
    list.push((11, RECOVERY + UPPER + 1, 1_000_001));
    list.push((22, RECOVERY + UPPER, 10));
    list
}

/// The writer's refusal, with room or without.
fn writers_refusal(wrong: &[&(u8, usize, i32)], room: usize) -> u8 {
    let mut numbers = sheet_of_three().numbers();
    for &&(_, slot, number) in wrong {
        numbers[slot] = number;
    }
    let mut buffer = vec![7; room];
    let written = sheet::write(&Sheet::from_numbers(&numbers), &mut buffer, 0);
    assert!(written.is_ok() || buffer == vec![7; room]);
    written.err().map_or(0, Refusal::number)
}

#[test]
fn the_writers_order_of_refusals() {
    let wrong = wrong_numbers();
    let length = sheet_of_three().length();
    assert_eq!(writers_refusal(&[], length), 0);
    assert_eq!(writers_refusal(&[], length - 1), 17);
    for (i, first) in wrong.iter().enumerate() {
        for room in [length, length - 1, 0] {
            assert_eq!(writers_refusal(&[first], room), first.0);
            for second in &wrong[i + 1..] {
                assert_eq!(writers_refusal(&[first, second], room), first.0);
            }
        }
    }
}

/// Numbers that only look random.
struct Numbers(u64);

impl Numbers {
    fn between(&mut self, least: i32, greatest: i32) -> i32 {
        let step = self.0.wrapping_mul(6_364_136_223_846_793_005);
        self.0 = step.wrapping_add(1_442_695_040_888_963_407);
        least + ((self.0 >> 33) % (greatest - least + 1) as u64) as i32
    }

    /// A pair with its lower side and its length from these ranges.
    fn pair(&mut self, lower: (i32, i32), length: i32) -> (i64, i64) {
        let lower = self.between(lower.0, lower.1);
        (lower.into(), (lower + self.between(0, length)).into())
    }
}

/// A machine of two variables and two bands that its plain law draws to 0, with these many no-go
/// boxes around, in any order. Some of them are on the recovery box.
fn among_boxes(numbers: &mut Numbers, boxes: usize) -> Sheet {
    let mut pull = |own: usize| {
        let mut row = row([numbers.between(-2, 2), numbers.between(-2, 2)], 0, 8);
        row.a[own] = numbers.between(-6, -1);
        (row.b, row.d) = (numbers.between(-9, 9), numbers.between(0, 3));
        row
    };
    let mut sheet = machine(&[(FIRST_EDGE, pull(0), pull(1)), (5, pull(0), pull(1))]);
    sheet.delta = numbers.between(1, 6);
    sheet.alpha = numbers.between(1, 8);
    sheet.rho = numbers.between(1, 8);
    (sheet.commands.least, sheet.commands.greatest) = (-9, 9);
    sheet.recovery = sides((-40, 40), (-30, 30));
    sheet.unsafe_count = boxes as i32;
    for unsafe_box in &mut sheet.unsafe_boxes[..boxes] {
        let far = [(-70, -40), (25, 55)][numbers.between(0, 1) as usize];
        *unsafe_box = sides(numbers.pair(far, 15), numbers.pair((-50, 30), 25));
    }
    sheet
}

/// All orders of so many things.
fn orders(count: usize) -> Vec<Vec<usize>> {
    if count == 0 {
        return vec![Vec::new()];
    }
    let longer = |order: Vec<usize>| {
        (0..count).map(move |at| {
            let mut order = order.clone();
            order.insert(at, count - 1);
            order
        })
    };
    orders(count - 1).into_iter().flat_map(longer).collect()
}

/// Some orders of eight.
fn orders_of_eight(numbers: &mut Numbers) -> Vec<Vec<usize>> {
    let mut order: Vec<usize> = (0..8).collect();
    let mut next = || {
        for at in (1..8).rev() {
            order.swap(at, numbers.between(0, at as i32) as usize);
        }
        order.clone()
    };
    (0..24).map(|_| next()).collect()
}

/// The sheet's values with the boxes in this order.
fn in_order(sheet: &Sheet, order: &[usize]) -> Sheet {
    let mut other = *sheet;
    for (at, &from) in order.iter().enumerate() {
        other.unsafe_boxes[at] = sheet.unsafe_boxes[from];
    }
    other
}

/// The last step that settled.
#[derive(Default)]
struct LastStep(Option<Step>);

impl Watch for LastStep {
    fn settled(&mut self, step: &Step) -> ControlFlow<()> {
        self.0 = Some(*step);
        ControlFlow::Continue(())
    }
}

/// How often each answer was seen: keep, finest at a no-go box, other finest, spent; pass, fail at a
/// no-go box, other fail.
#[derive(Default)]
struct Answers {
    decisions: [u32; 4],
    checks: [u32; 3],
}

impl Answers {
    fn decision(&mut self, sheet: &Sheet, question: &Question) -> Decision {
        let mut last = LastStep::default();
        let decision = decide_watched(sheet, question, Faults::default(), &mut last);
        let kind = match decision {
            Decision::Keep { .. } => 0,
            Decision::Finest { .. } if ended_at_a_box(sheet, &last) => 1,
            Decision::Finest { .. } => 2,
            _ => 3,
        };
        self.decisions[kind] += 1;
        decision
    }

    fn check(&mut self, sheet: &Sheet) -> RecoveryCheck {
        let mut last = LastStep::default();
        let check = check_recovery_watched(sheet, &mut last);
        let kind = match check {
            RecoveryCheck::Pass { .. } => 0,
            _ if ended_at_a_box(sheet, &last) => 1,
            _ => 2,
        };
        self.checks[kind] += 1;
        check
    }
}

fn ended_at_a_box(sheet: &Sheet, last: &LastStep) -> bool {
    let swept = last.0.expect("a step").swept;
    sheet.unsafe_boxes().iter().any(|u| u.meets(&swept))
}

/// All orders give the same recovery check and decisions as the first.
fn compare_orders(numbers: &mut Numbers, sheet: &Sheet, orders: &[Vec<usize>], seen: &mut Answers) {
    let check = seen.check(sheet);
    for order in orders {
        assert_eq!(seen.check(&in_order(sheet, order)), check, "{order:?}");
    }
    for allowance in [1_000_000, numbers.between(0, 30) as u32] {
        let question = Question {
            allowance,
            span: CommandRange::one(numbers.between(-9, 9)),
            measured: sides(numbers.pair((-45, 40), 6), numbers.pair((-35, 30), 6)),
        };
        let decision = seen.decision(sheet, &question);
        for order in orders {
            let other = seen.decision(&in_order(sheet, order), &question);
            assert_eq!(other, decision, "{order:?}");
        }
    }
}

#[test]
fn the_order_of_the_boxes_changes_no_answer() {
    let (mut numbers, mut seen) = (Numbers(2), Answers::default());
    for boxes in 1..=4 {
        for _ in 0..100 {
            let sheet = among_boxes(&mut numbers, boxes);
            compare_orders(&mut numbers, &sheet, &orders(boxes), &mut seen);
        }
    }
    for _ in 0..100 {
        let sheet = among_boxes(&mut numbers, 8);
        let orders = orders_of_eight(&mut numbers);
        compare_orders(&mut numbers, &sheet, &orders, &mut seen);
    }
    assert_eq!(orders(4).len(), 24);
    let least = seen.decisions.iter().chain(&seen.checks).min();
    assert!(
        least >= Some(&100),
        "{:?} {:?}",
        seen.decisions,
        seen.checks
    );
}

// ---- Paper 3

/// One tick, which one round settles: the start box moved by the rates.
fn moved(sheet: &Sheet, start: StateBox) -> StateBox {
    let Reach { end, rounds, .. } = reach(sheet, 1, 1, Law::Baseline, &start).unwrap();
    assert_eq!(rounds, 1);
    end
}

const STILL: Row = Row {
    a: [0; VARIABLES],
    b: 0,
    c: 0,
    d: 0,
    q: 1,
};

/// The same before the paper.
fn moved_before(sheet: &Sheet, start: StateBox) -> StateBox {
    let (law, mut budget) = (Law::Baseline, Budget::unlimited());
    let watch = &mut WholeNeighborhoods;
    advance(sheet, law, &start, 1, 1, &mut budget, watch).unwrap()
}

#[test]
fn a_row_is_bounded_over_its_band_alone() {
    // x changes by z / 4 below 8 and by (16 - z) / 4 from 8 on: at most 2 at the edge.
    // Over z from 0 to 16 either row alone gives up to 4.
    let sheet = machine(&[
        (FIRST_EDGE, row([0, 1], 0, 4), STILL),
        (8, row([0, -1], 16, 4), STILL),
    ]);
    let start = sides((50, 50), (0, 16));
    assert_eq!(moved(&sheet, start), sides((50, 52), (0, 16)));
    assert_eq!(moved_before(&sheet, start), sides((50, 54), (0, 16)));
}

#[test]
fn three_bands() {
    // Between 4 and 7 x changes by (z - 5) / 1: -1 to 2. Outside of it x is still.
    let sheet = machine(&[
        (FIRST_EDGE, STILL, STILL),
        (4, row([0, 1], -5, 1), STILL),
        (8, STILL, STILL),
    ]);
    let end = moved(&sheet, sides((50, 50), (0, 16)));
    assert_eq!(end, sides((49, 52), (0, 16)));
    // The last band has no end: with (z - 8) / 4 from 8 on, 2 at 16.
    let sheet = machine(&[(FIRST_EDGE, STILL, STILL), (8, row([0, 1], -8, 4), STILL)]);
    let end = moved(&sheet, sides((50, 50), (0, 16)));
    assert_eq!(end, sides((50, 52), (0, 16)));
}

#[test]
fn an_edge_on_a_side() {
    // From z = 12 on x changes by z - 10. Up to 11 that band is not met, up to 12 only at 12.
    let sheet = machine(&[(FIRST_EDGE, STILL, STILL), (12, row([0, 1], -10, 1), STILL)]);
    let with = |upper| moved(&sheet, sides((50, 50), (0, upper)));
    assert_eq!(with(11), sides((50, 50), (0, 11)));
    assert_eq!(with(12), sides((50, 52), (0, 12)));
    assert_eq!(with(13), sides((50, 53), (0, 13)));
    // From 12 on the first band is not met.
    let end = moved(&sheet, sides((50, 50), (12, 13)));
    assert_eq!(end, sides((52, 53), (12, 13)));
}

#[test]
fn the_band_variables_own_faces_are_cut_twice() {
    // z from 0 to 40, one tick: the lower neighborhood is 0..10, the upper one 30..40. The edges
    // at 7 and at 34 cut them. z's rows: below 7 -z / 2, so floor(-6 / 2) = -3 and not -5 at 10;
    // from 7 to 33 (20 - z) / 4, which at 10 is 2 and at 30 is -2, its ceiling; from 34 on
    // (z - 38) / 2, at 40 it is 1.
    let sheet = machine(&[
        (FIRST_EDGE, STILL, row([0, -1], 0, 2)),
        (7, STILL, row([0, -1], 20, 4)),
        (34, STILL, row([0, 1], -38, 2)),
    ]);
    let start = sides((50, 50), (0, 40));
    assert_eq!(moved(&sheet, start), sides((50, 50), (-3, 41)));
    assert_eq!(moved_before(&sheet, start), sides((50, 50), (-5, 41)));
}

#[test]
fn an_edge_where_the_depth_ends() {
    // z from 0 to 40, one tick: the neighborhoods are 0..10 and 30..40. Between the edges z changes
    // by (z - 20) / 5, elsewhere not. From 10 to 30 each neighborhood has one value of that band,
    // -2 and 2; from 11 to 29 none.
    let with = |edge, next| {
        let sheet = machine(&[
            (FIRST_EDGE, STILL, STILL),
            (edge, STILL, row([0, 1], -20, 5)),
            (next, STILL, STILL),
        ]);
        moved(&sheet, sides((50, 50), (0, 40)))
    };
    assert_eq!(with(10, 31), sides((50, 50), (-2, 42)));
    assert_eq!(with(11, 30), sides((50, 50), (0, 40)));
}

#[test]
fn a_decision_by_the_parts() {
    // Two ticks, x may rise by 2 each as in the first case: 54 is the most.
    let mut sheet = machine(&[
        (FIRST_EDGE, row([0, 1], 0, 4), STILL),
        (8, row([0, -1], 16, 4), STILL),
    ]);
    let mut question = b"QS".to_vec();
    for number in [100, 0, 50, 50, 0, 16] {
        question.extend(i32::to_be_bytes(number));
    }
    let mut answer = |most: i64| {
        sheet.recovery.upper[0] = most;
        let mut bytes = vec![0; sheet.length()];
        sheet::write(&sheet, &mut bytes, 0).unwrap();
        decide(&bytes, &question)
    };
    let (width, rounds) = (1, 2);
    assert_eq!(answer(54), Decision::Keep { width, rounds });
    assert_eq!(answer(53), Decision::Finest { width, rounds });
}

// ---- Paper 6

/// Least and greatest allowed change by a row without spread.
fn changes(numerator: i64, q: i32, cap: i32) -> (i64, i64) {
    let row = Row { q, ..STILL };
    (
        least_change(&row, numerator, cap),
        greatest_change(&row, numerator, cap),
    )
}

/// The caps under which the divisors are tried.
const CAPS: [i32; 3] = [1, 5, 1_000];

#[test]
fn changes_around_zero() {
    // Whatever the cap: -q and q are changes of -1 and 1, which cap 1 just allows.
    for cap in CAPS {
        assert_eq!(changes(-1, 1, cap), (-1, -1));
        assert_eq!(changes(0, 1, cap), (0, 0));
        assert_eq!(changes(1, 1, cap), (1, 1));
        for q in [7, 4_096] {
            assert_eq!(changes(-i64::from(q), q, cap), (-1, -1));
            assert_eq!(changes(-1, q, cap), (-1, 0));
            assert_eq!(changes(0, q, cap), (0, 0));
            assert_eq!(changes(1, q, cap), (0, 1));
            assert_eq!(changes(i64::from(q), q, cap), (1, 1));
        }
    }
}

/// q, cap, and then a numerator with its floor and its ceiling, both clamped: one below -q·cap, at
/// it and one above it, one below q·cap, at it and one above it.
type Edges = (i32, i32, [(i64, i64, i64); 6]);

#[rustfmt::skip]
const EDGES: [Edges; 9] = [
    (1, 1, [(-2, -1, -1), (-1, -1, -1), (0, 0, 0), (0, 0, 0), (1, 1, 1), (2, 1, 1)]),
    (1, 5, [(-6, -5, -5), (-5, -5, -5), (-4, -4, -4), (4, 4, 4), (5, 5, 5), (6, 5, 5)]),
    (1, 1_000, [
        (-1_001, -1_000, -1_000), (-1_000, -1_000, -1_000), (-999, -999, -999),
        (999, 999, 999), (1_000, 1_000, 1_000), (1_001, 1_000, 1_000),
    ]),
    (7, 1, [(-8, -1, -1), (-7, -1, -1), (-6, -1, 0), (6, 0, 1), (7, 1, 1), (8, 1, 1)]),
    (7, 5, [(-36, -5, -5), (-35, -5, -5), (-34, -5, -4), (34, 4, 5), (35, 5, 5), (36, 5, 5)]),
    (7, 1_000, [
        (-7_001, -1_000, -1_000), (-7_000, -1_000, -1_000), (-6_999, -1_000, -999),
        (6_999, 999, 1_000), (7_000, 1_000, 1_000), (7_001, 1_000, 1_000),
    ]),
    (4_096, 1, [
        (-4_097, -1, -1), (-4_096, -1, -1), (-4_095, -1, 0),
        (4_095, 0, 1), (4_096, 1, 1), (4_097, 1, 1),
    ]),
    (4_096, 5, [
        (-20_481, -5, -5), (-20_480, -5, -5), (-20_479, -5, -4),
        (20_479, 4, 5), (20_480, 5, 5), (20_481, 5, 5),
    ]),
    (4_096, 1_000, [
        (-4_096_001, -1_000, -1_000), (-4_096_000, -1_000, -1_000), (-4_095_999, -1_000, -999),
        (4_095_999, 999, 1_000), (4_096_000, 1_000, 1_000), (4_096_001, 1_000, 1_000),
    ]),
];

#[test]
fn changes_around_the_caps() {
    for (q, cap, edges) in EDGES {
        for (numerator, floor, ceil) in edges {
            let name = format!("{numerator} / {q}, cap {cap}");
            assert_eq!(changes(numerator, q, cap), (floor, ceil), "{name}");
        }
        // The two that lie strictly between are divided.
        for (numerator, floor, ceil) in [edges[2], edges[3]] {
            assert_eq!(floor_div(numerator, q, cap), floor);
            assert_eq!(ceil_div(numerator, q, cap), ceil);
        }
    }
}

#[test]
fn far_beyond_the_caps() {
    // The greatest numerator that a sheet can have: six variables, command, offset and spread.
    let far = 6 * 1_000 * 1_999_000 + 1_000 * 10_000 + 200_000_000;
    assert_eq!(far, 12_204_000_000);
    for (q, cap) in [(1, 1), (1, 1_000), (4_096, 1), (4_096, 1_000)] {
        let most = i64::from(cap);
        assert_eq!(changes(-far, q, cap), (-most, -most));
        assert_eq!(changes(far, q, cap), (most, most));
    }
}

/// Floor and ceiling with the clamp after the division, as document 01 says it.
fn divided_then_clamped(numerator: i64, q: i32, cap: i32) -> (i64, i64) {
    let (q, cap) = (i64::from(q), i64::from(cap));
    let floor = numerator.div_euclid(q);
    let ceil = -(-numerator).div_euclid(q);
    (floor.clamp(-cap, cap), ceil.clamp(-cap, cap))
}

/// All numerators from two divisors below -q·cap to two above q·cap.
fn numerators(q: i32, cap: i32) -> impl Iterator<Item = i64> {
    let end = i64::from(q) * i64::from(cap + 2);
    -end..=end
}

#[test]
fn comparing_first_changes_no_answer() {
    for q in 1..=64 {
        for cap in 1..=12 {
            for numerator in numerators(q, cap) {
                let wanted = divided_then_clamped(numerator, q, cap);
                let found = changes(numerator, q, cap);
                assert_eq!(found, wanted, "{numerator} / {q}, cap {cap}");
            }
        }
    }
}

#[test]
fn comparing_with_the_outermost_changes_no_answer() {
    for q in 1..=24 {
        for cap in 1..=6 {
            for numerator in numerators(q, cap) {
                let (floor, ceil) = divided_then_clamped(numerator, q, cap);
                for outermost in -i64::from(cap)..=i64::from(cap) {
                    let name = format!("{numerator} / {q}, cap {cap}, {outermost}");
                    let least = least_so_far(numerator, q, cap, outermost);
                    assert_eq!(least, floor.min(outermost), "{name}");
                    let greatest = greatest_so_far(numerator, q, cap, outermost);
                    assert_eq!(greatest, ceil.max(outermost), "{name}");
                }
            }
        }
    }
}

/// What a division asks is asserted where assertions are on.
#[cfg(debug_assertions)]
#[test]
fn no_other_numerator_is_divided() {
    let panics = |divide: fn(i64, i32, i32) -> i64, numerator| {
        std::panic::catch_unwind(|| divide(numerator, 7, 5)).is_err()
    };
    for divide in [floor_div, ceil_div] {
        assert!(panics(divide, -36) && panics(divide, -35) && !panics(divide, -34));
        assert!(panics(divide, 36) && panics(divide, 35) && !panics(divide, 34));
    }
}

/// Collects the changes.
struct Seen(Vec<Change>);

impl Watch for Seen {
    fn change(&mut self, change: Change) {
        self.0.push(change);
    }
}

#[test]
fn the_watch_sees_every_change() {
    // x changes by (z + 2 ± 3) / 4 below 8 and by 40 / 2 from 8 on; z is still.
    let mut slow = row([0, 1], 2, 4);
    slow.d = 3;
    let sheet = machine(&[(FIRST_EDGE, slow, STILL), (8, row([0, 0], 40, 2), STILL)]);
    let mut seen = Seen(Vec::new());
    let (law, mut budget) = (Law::Baseline, Budget::unlimited());
    let start = sides((50, 50), (-19, 8));
    let end = advance(&sheet, law, &start, 1, 1, &mut budget, &mut seen).unwrap();
    // Below 8, z goes from -19 to 7: -19 + 2 - 3 is -20, just -q·cap; 7 + 2 + 3 is 12, a change of 3.
    // From 8 on 40 is beyond q·cap, which is 10.
    assert_eq!(end, sides((45, 55), (-19, 8)));
    let of_x = seen.0.iter().filter(|change| change.variable == 0);
    let found: Vec<_> = of_x
        .map(|c| (c.face, c.numerator, c.limit(), c.place()))
        .collect();
    let wanted = [
        (Face::Lower, 40, 10, Place::Greatest),
        (Face::Upper, 40, 10, Place::Greatest),
        (Face::Lower, -20, 20, Place::Least),
        (Face::Upper, 12, 20, Place::Between),
    ];
    assert_eq!(found, wanted);
}

// ---- Paper 8

/// The sides of the recovery box in each variable, and sides that share a value with it.
const BACK: (i64, i64) = (-10, 30);
const SHARED: (i64, i64) = (25, 60);

/// A machine of n variables with that recovery box and these no-go boxes.
fn beside(n: usize, boxes: &[StateBox]) -> Sheet {
    let mut sheet = still(n, boxes);
    sheet.recovery = box_of(&[BACK; VARIABLES]);
    sheet
}

/// By which number a sheet with this one no-go box is refused.
fn with_box(pairs: &[(i64, i64)]) -> u8 {
    refusal(&beside(pairs.len(), &[box_of(pairs)]))
}

/// Sides just beside those of the recovery box, and sides that touch them.
const NEXT_TO: [(i64, i64); 4] = [(31, 40), (31, 31), (-20, -11), (-11, -11)];
const TOUCHING: [(i64, i64); 4] = [(30, 40), (30, 30), (-20, -10), (-10, -10)];

#[test]
fn a_box_that_only_touches_is_refused() {
    for n in 1..=VARIABLES {
        for i in 0..n {
            let with = |pair| {
                let mut pairs = [SHARED; VARIABLES];
                pairs[i] = pair;
                with_box(&pairs[..n])
            };
            assert_eq!(NEXT_TO.map(with), [0; 4]);
            assert_eq!(TOUCHING.map(with), [22; 4]);
        }
    }
}

#[test]
fn a_box_at_a_corner_is_refused() {
    for n in 1..=VARIABLES {
        for corner in 0..1 << n {
            // Only the corner's own state is in both boxes.
            let pair = |i: usize| TOUCHING[if corner >> i & 1 == 1 { 0 } else { 2 }];
            let pairs: Vec<(i64, i64)> = (0..n).map(pair).collect();
            assert_eq!(with_box(&pairs), 22);
            for i in 0..n {
                let mut apart = pairs.clone();
                apart[i] = NEXT_TO[if corner >> i & 1 == 1 { 0 } else { 2 }];
                assert_eq!(with_box(&apart), 0);
            }
        }
    }
}

#[test]
fn sharing_values_in_all_variables_but_one_is_accepted() {
    for n in 1..=VARIABLES {
        for i in 0..n {
            for shared in [SHARED, BACK, (0, 0), (-2_000_000, 2_000_000)] {
                for far in [(-2_000_000, -2_000_000), (31, 2_000_000), (999, 1_000)] {
                    let mut pairs = [shared; VARIABLES];
                    pairs[i] = far;
                    assert_eq!(with_box(&pairs[..n]), 0);
                }
            }
        }
    }
}

#[test]
fn one_box_inside_the_other_is_refused() {
    let around = [(-2_000_000, 2_000_000), (-11, 31), (-10, 31), (-11, 30)];
    let inside = [(0, 0), (-9, 29), (-10, 29), (-9, 30), (30, 30)];
    for n in 1..=VARIABLES {
        for pair in around.into_iter().chain(inside).chain([BACK]) {
            assert_eq!(with_box(&[pair; VARIABLES][..n]), 22);
        }
        // Around it in one variable and inside it in the others.
        for i in 0..n {
            let mut pairs = [(0, 0); VARIABLES];
            pairs[i] = (-500, 500);
            assert_eq!(with_box(&pairs[..n]), 22);
        }
    }
}

/// Eight ascending boxes, of which that at j alone is on the recovery box.
fn eight_boxes(n: usize, j: usize) -> Vec<StateBox> {
    let one_variable = |k: usize| match k {
        _ if k < j => (-100 + k as i64, -50),
        _ if k == j => (-100 + k as i64, 0),
        _ => (31 + k as i64, 60),
    };
    let of = |k: usize| {
        if n == 1 {
            return box_of(&[one_variable(k)]);
        }
        // All share values in the variables before the last.
        let mut pairs = [(-100 + k as i64, 100); VARIABLES];
        pairs[n - 1] = if k == j { (30, 40) } else { (31, 40) };
        box_of(&pairs[..n])
    };
    (0..8).map(of).collect()
}

#[test]
fn each_box_is_compared_with_the_recovery_box() {
    for n in 1..=VARIABLES {
        // At 8 none of them is on it.
        assert_eq!(refusal(&beside(n, &eight_boxes(n, 8))), 0);
        for j in 0..8 {
            let boxes = eight_boxes(n, j);
            assert_eq!(refusal(&beside(n, &boxes)), 22);
            assert_eq!(refusal(&beside(n, &boxes[j..])), 22);
            assert_eq!(refusal(&beside(n, &boxes[..=j])), 22);
            if j > 0 {
                assert_eq!(refusal(&beside(n, &boxes[..j])), 0);
            }
        }
    }
}

/// What the writer says of values.
fn writes(sheet: &Sheet) -> Result<usize, u8> {
    let mut bytes = vec![0; sheet.length()];
    sheet::write(sheet, &mut bytes, 0).map_err(Refusal::number)
}

#[test]
fn boxes_beyond_the_count_are_not_compared_with_the_recovery_box() {
    for n in 1..=VARIABLES {
        for count in 1..8 {
            let mut sheet = beside(n, &eight_boxes(n, count));
            sheet.unsafe_count = count as i32;
            assert_eq!(writes(&sheet), Ok(sheet.length()));
            sheet.unsafe_count += 1;
            assert_eq!(writes(&sheet), Err(22));
        }
    }
}

#[test]
fn sides_beyond_n_neither_part_boxes_nor_join_them() {
    let (least, greatest) = (i64::from(i32::MIN), i64::from(i32::MAX));
    let beyond = [(7, 7), (1, 0), (least, least), (greatest, least), BACK];
    for n in 1..4 {
        for (no_go, back) in beyond.into_iter().flat_map(|x| beyond.map(|y| (x, y))) {
            let mut sheet = beside(n, &[box_of(&[no_go; VARIABLES])]);
            sheet.recovery = box_of(&[back; VARIABLES]);
            for i in 0..n {
                (sheet.recovery.lower[i], sheet.recovery.upper[i]) = BACK;
                (
                    sheet.unsafe_boxes[0].lower[i],
                    sheet.unsafe_boxes[0].upper[i],
                ) = SHARED;
            }
            assert_eq!(writes(&sheet), Err(22));
            sheet.unsafe_boxes[0].lower[n - 1] = 31;
            assert_eq!(writes(&sheet), Ok(sheet.length()));
        }
    }
}

#[test]
fn overlap_comes_before_all_of_a_call() {
    let sheet = beside(1, &[box_of(&[TOUCHING[0]])]);
    let (bytes, number) = (bytes_of(&sheet), Refusal::Overlap);
    let asked = |mark: &[u8], numbers: &[i32]| {
        let numbers = numbers.iter().flat_map(|number| number.to_be_bytes());
        [mark, &numbers.collect::<Vec<u8>>()].concat()
    };
    let questions = [
        asked(b"QS", &[9, 0, 0, 0]),
        asked(b"QX", &[9, 0, 0, 0]),
        asked(b"QS", &[9, 0, 0]),
        asked(b"QS", &[1_000_001, 0, 0, 0]),
        asked(b"QS", &[9, 1, 0, 0]),
        asked(b"QS", &[9, 0, 1, 0]),
    ];
    for question in questions {
        assert_eq!(decide(&bytes, &question), Decision::Refused(number));
        assert_eq!(listing(&bytes, &question), "sheet refused 22\n");
    }
    for (ticks, width, command) in [(1, 1, 0), (1_001, 1, 0), (1, 0, 0), (1, 1, 1)] {
        let start = box_of(&[(1, 0)]);
        let reached = sheet::read(&bytes)
            .and_then(|read| reach(&read, ticks, width, Law::command(command), &start));
        assert_eq!(reached, Err(number));
    }
    assert_eq!(check_recovery(&bytes), RecoveryCheck::Refused(number));
    assert_eq!(Decision::Refused(number).pack(), (3 << 48) + (22 << 32));
}

/// A machine whose changes are anything, with one or more bands, so that its long steps halve now and
/// then; up to 60 ticks from a recovery box of some length in each variable.
fn any_machine(numbers: &mut Numbers) -> Sheet {
    let n = numbers.between(1, VARIABLES as i32) as usize;
    let mut sheet = still(n, &[]);
    sheet.band_count = numbers.between(1, 3);
    sheet.rho = numbers.between(1, 60);
    sheet.band_variable = numbers.between(0, n as i32 - 1);
    sheet.caps = [(); VARIABLES].map(|()| numbers.between(1, 300));
    for (k, band) in sheet.bands[..3].iter_mut().enumerate() {
        band.edge = [FIRST_EDGE, -20, 15][k];
        for row in &mut band.rows {
            row.a = [(); VARIABLES].map(|()| numbers.between(-3, 3));
            (row.c, row.d) = (numbers.between(-30, 30), numbers.between(0, 9));
            row.q = numbers.between(1, 24);
        }
    }
    let pair = |numbers: &mut Numbers| numbers.pair((-40, 30), 25);
    sheet.recovery = box_of(&[(); VARIABLES].map(|()| pair(numbers))[..n]);
    sheet
}

/// A no-go box that shares a state with the recovery box: sides around one of its values each.
fn any_shared(numbers: &mut Numbers, back: &StateBox, n: usize) -> StateBox {
    let mut sides = *back;
    for i in 0..n {
        let shared = numbers.between(back.lower[i] as i32, back.upper[i] as i32);
        let shared = [back.lower[i], back.upper[i], shared.into()][numbers.between(0, 2) as usize];
        sides.lower[i] = shared - i64::from(numbers.between(0, 30) * numbers.between(0, 1));
        sides.upper[i] = shared + i64::from(numbers.between(0, 30) * numbers.between(0, 1));
    }
    sides
}

/// Sees the settled steps and how often one halved.
#[derive(Default)]
struct Steps {
    settled: Vec<Step>,
    halved: u32,
}

impl Watch for Steps {
    fn halved(&mut self, _ticks: u32) {
        self.halved += 1;
    }

    fn settled(&mut self, step: &Step) -> ControlFlow<()> {
        self.settled.push(*step);
        ControlFlow::Continue(())
    }
}

/// The widths of a recovery check in turn.
fn widths(rho: i32) -> Vec<u32> {
    let halves = |&width: &u32| (width > 1).then_some(width / 2);
    std::iter::successors(Some(rho as u32), halves).collect()
}

/// Each attempt of the check of these values fails at its first step, and the check at width 1.
/// Answers how often a step halved.
fn fails_at_first_steps(sheet: &Sheet) -> u32 {
    let (mut steps, widths) = (Steps::default(), widths(sheet.rho));
    let check = check_recovery_watched(sheet, &mut steps);
    let rounds = steps.settled.iter().map(|step| u64::from(step.rounds));
    let (width, rounds) = (1, rounds.sum());
    assert_eq!(check, RecoveryCheck::Fail { width, rounds });
    // A step for each width, all from the recovery box: no tick is behind any of them.
    assert_eq!(steps.settled.len(), widths.len());
    for (step, width) in steps.settled.iter().zip(widths) {
        assert_eq!(step.start, sheet.recovery);
        assert!(step.ticks <= width && sheet.recovery.inside(&step.swept));
        let traced = trace_recovery(sheet, width);
        assert_eq!((traced.steps, traced.succeeded), (vec![*step], false));
    }
    steps.halved
}

#[test]
fn without_the_test_each_attempt_fails_at_its_first_step() {
    let mut numbers = Numbers(8);
    let (mut halved, mut several) = (0, 0);
    for _ in 0..4_000 {
        let mut sheet = any_machine(&mut numbers);
        let (n, back) = (sheet.n(), sheet.recovery);
        let on = any_shared(&mut numbers, &back, n);
        let far = box_of(&[(500, 600); VARIABLES][..n]);
        (sheet.unsafe_boxes[0], sheet.unsafe_boxes[1]) = (on, far);
        sheet.unsafe_count = numbers.between(1, 2);
        assert_eq!(refusal(&sheet), 22);
        halved += u32::from(fails_at_first_steps(&sheet) > 0);
        several += u32::from(sheet.rho > 1);
    }
    assert!(halved > 100 && several > 3_000, "{halved} {several}");
}

#[test]
fn a_clear_recovery_box_may_fail_at_a_later_step() {
    let (mut numbers, mut later) = (Numbers(9), 0);
    for _ in 0..2_000 {
        let mut sheet = any_machine(&mut numbers);
        let last = sheet.n() - 1;
        sheet.unsafe_count = 1;
        sheet.unsafe_boxes[0] = sheet.recovery;
        sheet.unsafe_boxes[0].lower[last] = sheet.recovery.upper[last] + 1;
        sheet.unsafe_boxes[0].upper[last] += 40;
        assert_eq!(refusal(&sheet), 0);
        let mut steps = Steps::default();
        check_recovery_watched(&sheet, &mut steps);
        later += u32::from(steps.settled.len() > widths(sheet.rho).len());
    }
    assert!(later > 300, "{later}");
}

// ---- Paper 4

fn span(least: i32, greatest: i32) -> CommandRange {
    CommandRange { least, greatest }
}

/// A question's bytes: its mark, allowance, commands and sides.
fn asked(mark: &[u8], allowance: u32, commands: &[i32], sides: &[(i32, i32)]) -> Vec<u8> {
    let mut bytes = mark.to_vec();
    bytes.extend(allowance.to_be_bytes());
    bytes.extend(commands.iter().flat_map(|command| command.to_be_bytes()));
    let sides = sides.iter().flat_map(|&(lower, upper)| [lower, upper]);
    bytes.extend(sides.flat_map(i32::to_be_bytes));
    bytes
}

/// x alone, between 0 and the next edge pushed by b·u / 4 and from there on by c·u / 4; caps 5.
fn pushed(b: i32, edge: i32, c: i32) -> Sheet {
    let push = |b| Row {
        b,
        ..row([0, 0], 0, 4)
    };
    let mut sheet = machine(&[(FIRST_EDGE, push(b), STILL), (edge, push(c), STILL)]);
    (sheet.variables, sheet.band_variable) = (1, 0);
    sheet.commands = span(-8, 8);
    sheet.recovery = box_of(&[(-10, 100)]);
    sheet.unsafe_boxes[0] = box_of(&[(1_000, 1_000)]);
    sheet
}

/// Where x goes from this box in a tick under a span.
fn spanned(sheet: &Sheet, commands: CommandRange, start: (i64, i64)) -> (i64, i64) {
    let reached = reach(sheet, 1, 1, Law::span(commands), &box_of(&[start])).expect("no refusal");
    (reached.end.lower[0], reached.end.upper[0])
}

#[test]
fn a_term_is_bounded_by_its_outer_end() {
    // 8/4 is 2 and -4/4 is -1.
    let forward = pushed(1, 50, 1);
    assert_eq!(spanned(&forward, span(-4, 8), (10, 20)), (9, 22));
    let backward = pushed(-1, 50, -1);
    assert_eq!(spanned(&backward, span(-4, 8), (10, 20)), (8, 21));
    assert_eq!(spanned(&backward, span(4, 8), (10, 20)), (8, 19));
    // Without a coefficient no command moves x.
    assert_eq!(spanned(&pushed(0, 50, 0), span(-8, 8), (10, 20)), (10, 20));
    // Another sign from 15 on: either end of the span may be the outer one of a face.
    let turning = pushed(1, 15, -1);
    assert_eq!(spanned(&turning, span(-4, 8), (10, 20)), (8, 22));
    assert_eq!(spanned(&turning, span(-4, 8), (10, 14)), (9, 16));
    assert_eq!(spanned(&turning, span(-4, 8), (15, 20)), (13, 21));
    // One command is a span of one.
    let one = reach(&turning, 1, 1, Law::command(8), &box_of(&[(10, 20)]));
    assert_eq!(one.expect("no refusal").end, box_of(&[(8, 22)]));
    assert_eq!(spanned(&turning, span(8, 8), (10, 20)), (8, 22));
}

/// x follows the command, and from 1 on z goes by -5 times the command. From x = z = 0 the command 1
/// leads z down, -1 leaves it; 1 and then -1 leads it to 5, into the no-go box.
fn steered() -> Sheet {
    let by = |b| Row {
        b,
        ..row([0, 0], 0, 1)
    };
    let mut sheet = machine(&[(FIRST_EDGE, by(1), STILL), (1, by(1), by(-5))]);
    (sheet.band_variable, sheet.delta) = (0, 2);
    sheet.caps = padded([1, 5]);
    sheet.commands = span(-1, 1);
    sheet.recovery = sides((-3, 3), (-20, 4));
    sheet.unsafe_boxes[0] = sides((-3, 3), (5, 9));
    sheet
}

#[test]
fn a_span_is_more_than_each_of_its_commands() {
    let sheet = steered();
    let decided = |span| {
        let (allowance, measured) = (100, StateBox::default());
        let question = Question {
            allowance,
            span,
            measured,
        };
        decide_watched(&sheet, &question, Faults::default(), &mut NoWatch)
    };
    for command in -1..=1 {
        let one = decided(CommandRange::one(command));
        assert!(matches!(one, Decision::Keep { .. }), "{command} {one:?}");
    }
    assert!(matches!(decided(span(-1, 0)), Decision::Keep { .. }));
    assert!(matches!(decided(span(-1, 1)), Decision::Finest { .. }));
    let mut state = State::default();
    tick(&mut Numbers(1), &sheet, &mut state, 1);
    tick(&mut Numbers(1), &sheet, &mut state, -1);
    assert!(sheet.unsafe_boxes[0].holds(&state));
}

#[test]
fn lengths_by_mark() {
    for n in 1..=VARIABLES {
        assert_eq!(question_length(b"QS", n), Some(10 + 8 * n));
        assert_eq!(question_length(b"QR and more", n), Some(14 + 8 * n));
        for unknown in [&b""[..], b"Q", b"QT", b"RR", b"sq", b"SQ", b"qs", b"RQ"] {
            assert_eq!(question_length(unknown, n), None);
        }
    }
}

/// By which number a question is refused on a sheet with commands from -8 to 8; 0 is none.
fn refused_question(question: &[u8]) -> u8 {
    let sheet = pushed(1, 50, 1);
    let decision = decide(&bytes_of(&sheet), question);
    let read = read_question(&sheet, question).err();
    match (decision, read) {
        (Decision::Refused(refusal), Some(read)) if refusal == read => refusal.number(),
        (Decision::Refused(_), _) | (_, Some(_)) => panic!("{decision:?} {read:?}"),
        _ => 0,
    }
}

#[test]
fn spans_within_the_heads_commands() {
    let span = |least, greatest| asked(b"QR", 9, &[least, greatest], &[(0, 0)]);
    for (least, greatest) in [(-8, 8), (-8, -8), (8, 8), (0, 0), (-1, 7)] {
        assert_eq!(refused_question(&span(least, greatest)), 0);
    }
    let outside = [(-9, 8), (-8, 9), (-9, -9), (9, 9), (i32::MIN, i32::MAX)];
    let reversed = [(1, 0), (8, -8), (9, -9), (i32::MAX, i32::MIN)];
    for (least, greatest) in outside.into_iter().chain(reversed) {
        assert_eq!(refused_question(&span(least, greatest)), 14);
    }
}

#[test]
fn a_mark_has_its_own_length() {
    let sides = &[(0, 0)];
    let (one, two) = (&[3][..], &[3, 3][..]);
    assert_eq!(refused_question(&asked(b"QS", 9, one, sides)), 0);
    assert_eq!(refused_question(&asked(b"QR", 9, two, sides)), 0);
    assert_eq!(refused_question(&asked(b"QS", 9, two, sides)), 12);
    assert_eq!(refused_question(&asked(b"QR", 9, one, sides)), 12);
    for mark in [b"QT", b"RR", b"sq", b"RQ"] {
        assert_eq!(refused_question(&asked(mark, 9, one, sides)), 12);
        assert_eq!(refused_question(&asked(mark, 9, two, sides)), 12);
    }
    let whole = asked(b"QR", 9, two, sides);
    for length in 0..whole.len() {
        assert_eq!(refused_question(&whole[..length]), 12);
    }
    let longer = [&whole[..], &[0]].concat();
    assert_eq!(refused_question(&longer), 12);
}

#[test]
fn faults_of_a_span_in_order() {
    // Mark, allowance, reversed span, an end outside, side.
    let faults: [(u8, usize, Vec<u8>); 5] = [
        (12, 0, b"RQ".to_vec()),
        (13, 2, 1_000_001_u32.to_be_bytes().to_vec()),
        (14, 6, 4_i32.to_be_bytes().to_vec()),
        (14, 10, 9_i32.to_be_bytes().to_vec()),
        (15, 14, 1_i32.to_be_bytes().to_vec()),
    ];
    let good = asked(b"QR", 1_000_000, &[-3, 3], &[(0, 0)]);
    assert_eq!(refused_question(&good), 0);
    let put = |question: &[u8], (_, at, bytes): &(u8, usize, Vec<u8>)| {
        let mut question = question.to_vec();
        question[*at..*at + bytes.len()].copy_from_slice(bytes);
        question
    };
    for (i, fault) in faults.iter().enumerate() {
        let question = put(&good, fault);
        assert_eq!(refused_question(&question), fault.0);
        assert_eq!(refused_question(&question[..21]), 12);
        for later in &faults[i + 1..] {
            assert_eq!(refused_question(&put(&question, later)), fault.0);
        }
        let refused = listing(&bytes_of(&pushed(1, 50, 1)), &question);
        assert!(refused.ends_with(&format!("1 refused {}\n", fault.0)));
    }
}

/// Any question about a machine of `among_boxes`, with any span of its commands.
fn any_span(numbers: &mut Numbers) -> Question {
    let least = numbers.between(-9, 9);
    Question {
        allowance: 1_000_000,
        span: span(least, numbers.between(least, 9)),
        measured: sides(numbers.pair((-45, 40), 6), numbers.pair((-35, 30), 6)),
    }
}

#[test]
fn a_span_of_one_answers_as_its_command() {
    let (mut numbers, mut kept, mut refused) = (Numbers(4), 0, 0);
    for _ in 0..3_000 {
        let mut sheet = among_boxes(&mut numbers, 2);
        sheet.recovery = sides((-20, 20), (-20, 20));
        let bytes = bytes_of(&sheet);
        let command = numbers.between(-11, 11);
        let allowance = [1_000_000, 8, 0, 1_000_001][numbers.between(0, 3) as usize];
        let side = |numbers: &mut Numbers| {
            let (lower, upper) = numbers.pair((-45, 40), 6);
            (lower as i32, upper as i32)
        };
        let measured = [side(&mut numbers), side(&mut numbers)];
        let one = decide(&bytes, &asked(b"QS", allowance, &[command], &measured));
        let two = decide(
            &bytes,
            &asked(b"QR", allowance, &[command, command], &measured),
        );
        assert_eq!(one, two);
        kept += u32::from(matches!(one, Decision::Keep { .. }));
        refused += u32::from(matches!(one, Decision::Refused(Refusal::Command)));
    }
    assert!(kept > 100 && refused > 100, "{kept} {refused}");
}

/// The first step of a reach.
fn first_step(sheet: &Sheet, law: Law, start: &StateBox, width: u32) -> Step {
    let (mut steps, mut budget) = (Steps::default(), Budget::unlimited());
    let end = advance(sheet, law, start, width, width, &mut budget, &mut steps);
    assert!(end.is_ok());
    steps.settled[0]
}

#[test]
fn a_spans_step_holds_that_of_each_command() {
    let (mut numbers, mut compared, mut wider) = (Numbers(5), 0, 0);
    for _ in 0..1_500 {
        let sheet = among_boxes(&mut numbers, 1);
        let Question { span, measured, .. } = any_span(&mut numbers);
        let width = [1, 2, 5, 9][numbers.between(0, 3) as usize];
        let all = first_step(&sheet, Law::span(span), &measured, width);
        for command in span.least..=span.greatest {
            let one = first_step(&sheet, Law::command(command), &measured, width);
            if one.ticks == all.ticks {
                assert!(one.end.inside(&all.end) && one.swept.inside(&all.swept));
                compared += 1;
                wider += u32::from(one.end != all.end);
            }
        }
    }
    assert!(compared > 5_000 && wider > 2_000, "{compared} {wider}");
}

/// One tick with the least or the greatest change of each variable, under one command for all of them.
fn tick(numbers: &mut Numbers, sheet: &Sheet, state: &mut State, command: i32) {
    let before = *state;
    for (i, value) in state.iter_mut().enumerate().take(sheet.n()) {
        let (least, greatest) = allowed_change(sheet, &before, command, i).expect("a band");
        *value += [least, greatest][numbers.between(0, 1) as usize];
    }
}

/// A run of a period under any commands of the span and then of alpha plain ticks. Answers whether it
/// kept clear of the no-go boxes and came back.
fn comes_back(numbers: &mut Numbers, sheet: &Sheet, question: &Question) -> bool {
    let at = &question.measured;
    let corner = |i: usize| [at.lower[i], at.upper[i]][numbers.between(0, 1) as usize];
    let mut state: State = std::array::from_fn(corner);
    for time in 0..sheet.delta + sheet.alpha {
        let commands = if time < sheet.delta {
            question.span
        } else {
            plain_commands(sheet, &state).expect("a band")
        };
        let command = numbers.between(commands.least, commands.greatest);
        tick(numbers, sheet, &mut state, command);
        if sheet.unsafe_boxes().iter().any(|u| u.holds(&state)) {
            return false;
        }
    }
    sheet.recovery.holds(&state)
}

/// How many runs were made behind keeps of a guard that bounds a span so, and how many went wrong.
fn runs(bounded: Bounded) -> (u32, u32) {
    let faults = Faults {
        bounded,
        ..Faults::default()
    };
    let (mut numbers, mut made, mut wrong) = (Numbers(6), 0, 0);
    for _ in 0..6_000 {
        let mut sheet = among_boxes(&mut numbers, 2);
        sheet.recovery = sides((-20, 20), (-20, 20));
        let question = any_span(&mut numbers);
        let decision = decide_watched(&sheet, &question, faults, &mut NoWatch);
        if question.span.least == question.span.greatest
            || !matches!(decision, Decision::Keep { .. })
        {
            continue;
        }
        for _ in 0..20 {
            made += 1;
            wrong += u32::from(!comes_back(&mut numbers, &sheet, &question));
        }
    }
    (made, wrong)
}

#[test]
fn a_kept_span_may_be_used_in_any_way() {
    let (made, wrong) = runs(Bounded::Outer);
    assert!(made > 2_000 && wrong == 0, "{made} {wrong}");
    for bounded in [Bounded::Inner, Bounded::Least, Bounded::Greatest] {
        let (made, wrong) = runs(bounded);
        assert!(wrong > 20, "{bounded:?} {made} {wrong}");
    }
}

#[test]
fn the_first_phase_alone_is_under_the_span() {
    let mut sheet = pushed(1, 50, 1);
    (sheet.delta, sheet.alpha) = (3, 2);
    let question = Question {
        allowance: 100,
        span: span(-4, 8),
        measured: box_of(&[(10, 20)]),
    };
    let steps = trace(&sheet, &question, 1, Faults::default()).steps;
    let laws: Vec<Law> = steps.iter().map(|step| step.law).collect();
    let under = Law::Span {
        least: -4,
        greatest: 8,
    };
    let plain = Law::Baseline;
    assert_eq!(laws, [under, under, under, plain, plain]);
    assert_eq!(steps[2].end, box_of(&[(7, 26)]));
    assert_eq!(steps[4].end, box_of(&[(7, 26)]));
}

/// The lengths of the questions that a file of one variable is cut into.
fn cut(asks: &[u8]) -> Vec<usize> {
    questions(asks, 1).map(<[u8]>::len).collect()
}

#[test]
fn a_file_is_cut_by_mark() {
    let one = asked(b"QS", 100, &[3], &[(0, 0)]);
    let two = asked(b"QR", 100, &[-3, 3], &[(0, 0)]);
    let other = asked(b"QT", 100, &[3], &[(0, 0)]);
    assert_eq!(cut(&[]), []);
    assert_eq!(
        cut(&[&one[..], &two, &two, &one].concat()),
        [18, 22, 22, 18]
    );
    // An unknown mark takes the rest, whatever its length.
    assert_eq!(cut(&[&other[..], &one, &two].concat()), [58]);
    assert_eq!(cut(&[&one[..], &other, &two].concat()), [18, 40]);
    assert_eq!(cut(&[&two[..], &one, b"xx"].concat()), [22, 18, 2]);
    // So does a single byte.
    for byte in [b"Q", b"x"] {
        assert_eq!(cut(&[&two[..], byte].concat()), [22, 1]);
        assert_eq!(cut(byte), [1]);
    }
    // A mark cut short is a short tail.
    for length in 1..22 {
        let asks = [&one[..], &two[..length]].concat();
        assert_eq!(cut(&asks), [18, length]);
        let text = listing(&bytes_of(&pushed(1, 50, 1)), &asks);
        assert!(text.ends_with("2 refused 12\n"), "{text}");
    }
}

#[test]
fn a_listing_of_both_marks() {
    let sheet = bytes_of(&pushed(1, 50, 1));
    let two = |least, greatest| asked(b"QR", 100, &[least, greatest], &[(0, 0)]);
    let one = asked(b"QS", 100, &[3], &[(0, 0)]);
    let asks = [two(-4, 8), one.clone(), two(8, -4), two(3, 3), two(0, 9)].concat();
    let answers = "1 keep 1 2\n2 keep 1 2\n3 refused 14\n4 keep 1 2\n5 refused 14\n";
    assert_eq!(listing(&sheet, &asks), format!("sheet pass 1 1\n{answers}"));
    let unknown = [&asks[..], b"XX", &one].concat();
    let more = "6 refused 12\n";
    let text = format!("sheet pass 1 1\n{answers}{more}");
    assert_eq!(listing(&sheet, &unknown), text);
}

// ---- Paper 9

/// The law (Σ coefficient·x + constant)/divisor.
fn law<const M: usize>(coefficients: [i32; M], constant: i32, divisor: i32) -> BandLaw {
    BandLaw {
        coefficients: padded(coefficients),
        constant,
        divisor,
    }
}

/// x and z as in `machine`, of which x changes by b·u; each band has its edge, safety range, law and b.
fn by_laws(bands: &[(i32, CommandRange, BandLaw, i32)]) -> Sheet {
    let rows = bands.iter().map(|&(edge, _, _, b)| {
        let pushed = Row { b, ..STILL };
        (edge, pushed, STILL)
    });
    let mut sheet = machine(&rows.collect::<Vec<_>>());
    sheet.commands = span(-20, 20);
    sheet.caps = padded([1_000, 5]);
    for (band, &(_, safety, law, _)) in sheet.bands.iter_mut().zip(bands) {
        (band.safety, band.law) = (safety, law);
    }
    sheet
}

/// The plain commands at x and z.
fn commands_at(sheet: &Sheet, x: i64, z: i64) -> (i32, i32) {
    let CommandRange { least, greatest } = plain_commands(sheet, &padded([x, z])).expect("a band");
    (least, greatest)
}

#[test]
fn a_laws_commands_at_a_state() {
    // (2x - 3z + 1) / 4 within -6..9.
    let sheet = by_laws(&[(FIRST_EDGE, span(-6, 9), law([2, -3], 1, 4), 1)]);
    // Whole quotients, and those around a number.
    assert_eq!(commands_at(&sheet, 0, 3), (-2, -2));
    assert_eq!(commands_at(&sheet, 4, 3), (0, 0));
    assert_eq!(commands_at(&sheet, 0, 0), (0, 1));
    assert_eq!(commands_at(&sheet, 0, 1), (-1, 0));
    assert_eq!(commands_at(&sheet, -2, 1), (-2, -1));
    // -7/4 and -5/4 have floor -2, ceil -1.
    assert_eq!(commands_at(&sheet, -4, 0), (-2, -1));
    assert_eq!(commands_at(&sheet, -3, 0), (-2, -1));
    // Clamped at the least command: -23/4, -6 and -25/4 on both sides of it.
    assert_eq!(commands_at(&sheet, -12, 0), (-6, -5));
    assert_eq!(commands_at(&sheet, -11, 1), (-6, -6));
    assert_eq!(commands_at(&sheet, -13, 0), (-6, -6));
    assert_eq!(commands_at(&sheet, -2_000_000, 2_000_000), (-6, -6));
    // At the greatest: 35/4, 9, 37/4.
    assert_eq!(commands_at(&sheet, 17, 0), (8, 9));
    assert_eq!(commands_at(&sheet, 16, -1), (9, 9));
    assert_eq!(commands_at(&sheet, 18, 0), (9, 9));
    assert_eq!(commands_at(&sheet, 1_999_000, -1_999_000), (9, 9));
}

#[test]
fn a_safety_range_of_one_command_or_away_from_the_law() {
    let of = |safety| by_laws(&[(FIRST_EDGE, safety, law([1, 0], 0, 3), 1)]);
    for x in [-100, -10, -3, 0, 1, 3, 100] {
        assert_eq!(commands_at(&of(span(2, 2)), x, 0), (2, 2));
        let floor = (x as i32).div_euclid(3).clamp(-20, 20);
        assert_eq!(commands_at(&of(span(-20, 20)), x, 0).0, floor);
    }
    // A law between 0 and 1: below, within and above the safety range.
    assert_eq!(commands_at(&of(span(1, 5)), 1, 0), (1, 1));
    assert_eq!(commands_at(&of(span(0, 5)), 1, 0), (0, 1));
    assert_eq!(commands_at(&of(span(-5, 1)), 1, 0), (0, 1));
    assert_eq!(commands_at(&of(span(-5, 0)), 1, 0), (0, 0));
    assert_eq!(commands_at(&of(span(-5, -2)), 1, 0), (-2, -2));
}

#[test]
fn each_band_has_its_law_and_a_bd_sheet_its_safety_range() {
    let mut sheet = by_laws(&[
        (FIRST_EDGE, span(-6, 9), law([1, 0], 0, 2), 1),
        (0, span(-4, 4), law([-1, 0], 0, 1), 1),
    ]);
    assert_eq!(commands_at(&sheet, 3, -1), (1, 2));
    assert_eq!(commands_at(&sheet, 3, 0), (-3, -3));
    assert_eq!(plain_commands(&sheet, &padded([3, -2_000_001])), None);
    assert_eq!(sheet.kind(), Kind::Following);
    sheet.bands[0].law.divisor = 0;
    assert_eq!(sheet.kind(), Kind::Fixed);
    assert_eq!(commands_at(&sheet, 3, -1), (-6, 9));
    assert_eq!(commands_at(&sheet, 3, 0), (-4, 4));
}

#[test]
fn a_law_is_bounded_over_the_part_in_its_band() {
    // x changes by u in the first band, z / 2, and by -2u in the second, z - 10, within -4..6 each.
    let laws = [law([0, 1], 0, 2), law([0, 1], -10, 1)];
    let sheet = by_laws(&[
        (FIRST_EDGE, span(-4, 6), laws[0], 1),
        (10, span(-4, 6), laws[1], -2),
    ]);
    let end = |z: (i64, i64)| {
        let end = moved(&sheet, sides((0, 0), z));
        (end.lower[0], end.upper[0])
    };
    // Within one band: 3/2 to 4 is 1..4; clamped below, above and at both ends.
    assert_eq!(end((3, 8)), (1, 4));
    assert_eq!(end((-50, 3)), (-4, 2));
    assert_eq!(end((-50, -9)), (-4, -4));
    assert_eq!(end((11, 50)), (-12, -2));
    assert_eq!(end((16, 50)), (-12, -12));
    // Both bands: over 5..9 the first law has 2..5, over 10..12 the second 0..2, so -4..0. Over 5..12
    // they would have 2..6 and -4..2.
    assert_eq!(end((5, 12)), (-4, 5));
    let whole = moved_by::<OverWhole>(&sheet, sides((0, 0), (5, 12)));
    assert_eq!((whole.lower[0], whole.upper[0]), (-4, 8));
    // Under a span its ends, in every band.
    let law = Law::span(span(-1, 2));
    let spanned = reach(&sheet, 1, 1, law, &sides((0, 0), (5, 12))).unwrap();
    assert_eq!(spanned.end, sides((-4, 2), (5, 12)));
}

/// One tick by another rule.
fn moved_by<W: Watch + Default>(sheet: &Sheet, start: StateBox) -> StateBox {
    let (mut budget, mut watch) = (Budget::unlimited(), W::default());
    advance(sheet, Law::Baseline, &start, 1, 1, &mut budget, &mut watch).unwrap()
}

#[test]
fn a_faces_own_side_is_cut_before_its_law_is_bounded() {
    // x from 0 to 100 with cap 10: its lower face looks at 0..20, its upper one at 80..100.
    let of = |law, b| {
        let mut sheet = by_laws(&[(FIRST_EDGE, span(-20, 20), law, b)]);
        sheet.caps[0] = 10;
        let end = moved(&sheet, sides((0, 100), (3, 5)));
        (end.lower[0], end.upper[0] - 100)
    };
    // -x/10: 0 down to -2 there, -8 down to -10 here; x/10 likewise.
    assert_eq!(of(law([-1, 0], 0, 10), 1), (-2, -8));
    assert_eq!(of(law([1, 0], 0, 10), 1), (0, 10));
    // With b = -1 the other end counts: the greatest of -x/10 over 0..20 is 0, its least over
    // 80..100 is -10.
    assert_eq!(of(law([-1, 0], 0, 10), -1), (0, 10));
    assert_eq!(of(law([1, 0], 0, 10), -1), (-2, -8));
    // z's sides are not cut: (x + 4z)/10 from 12/10 to 40/10 and from 92/10 to 12.
    assert_eq!(of(law([1, 4], 0, 10), 1), (1, 10));
    assert_eq!(of(law([-1, 4], 0, 10), 1), (-1, -6));
    // Without a term of the command the law has no part in it.
    assert_eq!(of(law([1_000, 1_000], 5, 1), 0), (0, 0));
}

/// A face that is cut by its depth and by an edge; the rest of the slab is in the other band.
#[test]
fn the_band_variables_law_is_cut_twice() {
    // z changes by u: -z below 4 and -8 - z from there on, within -20..20.
    let laws = [law([0, -1], 0, 1), law([0, -1], -8, 1)];
    let mut sheet = by_laws(&[
        (FIRST_EDGE, span(-20, 20), laws[0], 0),
        (4, span(-20, 20), laws[1], 0),
    ]);
    for band in &mut sheet.bands[..2] {
        band.rows[1].b = 1;
    }
    // The lower face of 0..40 looks at 0..10: 0 to -3, and -12 to -18. The upper one at 30..40.
    let end = moved(&sheet, sides((7, 7), (0, 40)));
    assert_eq!(end, sides((7, 7), (-5, 35)));
    sheet.caps[1] = 100;
    let end = moved(&sheet, sides((7, 7), (0, 3)));
    assert_eq!(end, sides((7, 7), (-3, 3)));
    let end = moved(&sheet, sides((7, 7), (2, 5)));
    assert_eq!(end, sides((7, 7), (2 - 13, 3)));
}

/// The ends that the faces of one round look at.
#[derive(Default)]
struct Ends(Vec<(End, i64, Place)>);

impl Watch for Ends {
    fn command(&mut self, end: CommandEnd) {
        self.0.push((end.end, end.sum, end.place()));
    }
}

#[test]
fn the_watch_sees_every_end_that_is_needed() {
    let laws = [law([1, -1], 0, 2), law([0, 3], 0, 1)];
    let mut sheet = by_laws(&[
        (FIRST_EDGE, span(-4, 6), laws[0], 1),
        (10, span(-4, 6), laws[1], -2),
    ]);
    let ends = |sheet: &Sheet, law: Law| {
        let (mut ends, mut budget) = (Ends::default(), Budget::unlimited());
        let start = sides((0, 3), (8, 12));
        advance(sheet, law, &start, 1, 1, &mut budget, &mut ends).unwrap();
        ends.0
    };
    // The last band first, over z from 10 to 12: b is below 0, so the lower face needs the greatest
    // end. Then x - z over 8..9.
    let expected = [
        (End::Greatest, 36, Place::Greatest),
        (End::Least, 30, Place::Greatest),
        (End::Least, -9, Place::Least),
        (End::Greatest, -5, Place::Between),
    ];
    assert_eq!(ends(&sheet, Law::Baseline), expected);
    assert_eq!(ends(&sheet, Law::command(3)), []);
    sheet.bands[0].law.divisor = 0;
    assert_eq!(ends(&sheet, Law::Baseline), []);
}

#[test]
fn ends_around_the_safety_range() {
    for (safety, divisor) in [(span(-3, 5), 7), (span(-20, 20), 1), (span(2, 2), 4_096)] {
        let clamp = Clamp::new(divisor, safety);
        let (least, greatest) = (i64::from(safety.least), i64::from(safety.greatest));
        let q = i64::from(divisor);
        for sum in (least - 2) * q..=(greatest + 2) * q {
            let floor = sum.div_euclid(q).clamp(least, greatest);
            let ceil = -(-sum).div_euclid(q).clamp(-greatest, -least);
            assert_eq!(clamp.least_command(sum), floor);
            assert_eq!(clamp.greatest_command(sum), ceil);
        }
    }
    // The widest safety range, and the greatest sums that a sheet can have.
    let clamp = Clamp::new(4_096, span(-10_000, 10_000));
    let far = 6 * 1_000 * 1_999_000 + 100_000_000;
    assert_eq!(far, 12_094_000_000);
    assert_eq!(
        (clamp.least_command(-far), clamp.greatest_command(-far)),
        (-10_000, -10_000)
    );
    assert_eq!(
        (clamp.least_command(far), clamp.greatest_command(far)),
        (10_000, 10_000)
    );
    let edge = 4_096 * 10_000;
    assert_eq!(clamp.least_command(edge - 1), 9_999);
    assert_eq!(clamp.greatest_command(edge - 1), 10_000);
    assert_eq!(clamp.least_command(1 - edge), -10_000);
    assert_eq!(clamp.greatest_command(1 - edge), -9_999);
}

#[test]
fn lengths_of_both_kinds() {
    for n in 1..=VARIABLES {
        for (bands, boxes) in [(1, 1), (1, 8), (3, 2), (8, 8)] {
            let fixed = sheet::length(Kind::Fixed, n, bands, boxes);
            let following = sheet::length(Kind::Following, n, bands, boxes);
            assert_eq!(following, fixed + bands * (2 * n + 6));
        }
    }
    assert_eq!(sheet::length(Kind::Following, 1, 1, 1), 78);
    let longest = |kind| sheet::length(kind, VARIABLES, BANDS, UNSAFE_BOXES);
    assert_eq!(longest(Kind::Fixed), 1_746);
    assert_eq!(longest(Kind::Following), 1_890);
}

/// The boxes of `sheet_of_three` with two bands, which follow the state.
fn following_three() -> Sheet {
    let mut sheet = sheet_of_three();
    sheet.band_count = 2;
    sheet.bands[1] = sheet.bands[0];
    sheet.bands[1].edge = 5;
    for (band, constant) in sheet.bands.iter_mut().zip([7, -7]) {
        band.law = law([2, -3], constant, 4);
    }
    sheet
}

/// Where the marks of its two bands stand, and what follows a mark: the law's coefficients, constant
/// and divisor, and the second row's b.
const MARKS: [usize; 2] = [24, 80];
const LAW: usize = 14;
const CONSTANT: usize = LAW + 4;
const DIVISOR: usize = LAW + 8;
const LATER_B: usize = LAW + 10 + 16 + 4;

#[test]
fn a_band_with_its_law_in_bytes() {
    let sheet = following_three();
    let bytes = bytes_of(&sheet);
    assert_eq!(bytes.len(), 80 + 56 + 4 * 18);
    for (mark, constant) in MARKS.into_iter().zip([7_i32, -7]) {
        assert_eq!(bytes[mark..mark + 2], *b"BF");
        let law = [&[0, 2, 255, 253], &constant.to_be_bytes()[..], &[0, 4]].concat();
        assert_eq!(bytes[mark + LAW..mark + LAW + 10], law);
    }
    let read = sheet::read(&bytes).expect("a sheet");
    assert!(read == sheet && read.kind() == Kind::Following);
    // In the numbers: six coefficients, constant and divisor between the safety range and the rows.
    for (band, constant) in [(15, 7), (86, -7)] {
        let law = [2, -3, 0, 0, 0, 0, constant, 4];
        assert_eq!(read.numbers()[band + 3..band + 11], law);
    }
    // The same without laws is shorter, and is read with zeros.
    let mut fixed = sheet;
    fixed.bands[0].law.divisor = 0;
    let bytes = bytes_of(&fixed);
    assert_eq!(bytes.len(), 80 + 56 + 4 * 18 - 2 * 10);
    assert_eq!(bytes[24..26], *b"BD");
    let read = sheet::read(&bytes).expect("a sheet");
    assert!(read == fixed && read.kind() == Kind::Fixed);
    assert!(read.bands.iter().all(|band| band.law == BandLaw::default()));
}

/// By which number these bytes are refused; 0 is none.
fn refused(bytes: &[u8]) -> u8 {
    sheet::read(bytes).err().map_or(0, Refusal::number)
}

/// The bytes with others at some places.
fn with_bytes(bytes: &[u8], others: &[(usize, &[u8])]) -> Vec<u8> {
    let mut bytes = bytes.to_vec();
    for (at, new) in others {
        bytes[*at..at + new.len()].copy_from_slice(new);
    }
    bytes
}

/// `following_three` as it is, and with all marks `BD`.
fn both_kinds() -> (Vec<u8>, Vec<u8>) {
    let following = following_three();
    let mut fixed = following;
    fixed.bands[0].law.divisor = 0;
    (bytes_of(&following), bytes_of(&fixed))
}

#[test]
fn the_first_mark_fixes_the_length_and_the_other_marks() {
    let (following, fixed) = both_kinds();
    let marked = |bytes: &[u8], at, mark: &[u8]| refused(&with_bytes(bytes, &[(at, mark)]));
    let later = [MARKS[1], MARKS[1] - 10];
    // The other mark first, with this length.
    assert_eq!(marked(&following, MARKS[0], b"BD"), 5);
    assert_eq!(marked(&fixed, MARKS[0], b"BF"), 5);
    // The other mark later.
    assert_eq!(marked(&following, later[0], b"BD"), 7);
    assert_eq!(marked(&fixed, later[1], b"BF"), 7);
    // A mark of neither kind: first it has the length of `BD`.
    for other in [b"XY", b"BE", b"FB", b"bf", b"bd", b"NG", b"B\0", b"\0F"] {
        assert_eq!(marked(&following, MARKS[0], other), 5);
        assert_eq!(marked(&fixed, MARKS[0], other), 7);
        assert_eq!(marked(&following, later[0], other), 7);
        assert_eq!(marked(&fixed, later[1], other), 7);
    }
    // Both marks another one, of which the first one counts.
    for (first, second) in [(b"XY", b"BF"), (b"XY", b"BD"), (b"XY", b"XY")] {
        let both: [(usize, &[u8]); 2] = [(MARKS[0], first), (later[1], second)];
        assert_eq!(refused(&with_bytes(&fixed, &both)), 7);
    }
}

#[test]
fn a_file_that_ends_at_the_first_mark() {
    let (following, fixed) = both_kinds();
    for bytes in [&following, &fixed] {
        for end in 20..bytes.len() {
            assert_eq!(refused(&bytes[..end]), 5, "{end}");
        }
        assert_eq!(refused(&[bytes, &[0][..]].concat()), 5);
    }
    // The length by both marks with one letter of the mark, with both, and at either length.
    for end in [MARKS[0], MARKS[0] + 1, MARKS[0] + 2, fixed.len()] {
        assert_eq!(refused(&following[..end]), 5);
    }
    let longer = [&fixed[..], &[0; 20]].concat();
    assert_eq!(longer.len(), following.len());
    assert_eq!(refused(&longer), 5);
    assert_eq!(refused(&following[..19]), 1);
    // 4 comes before the length, 6 after it, with either mark.
    let bad_command: (usize, &[u8]) = (16, &[127, 0, 0, 0]);
    let bad_cap: (usize, &[u8]) = (20, &[0, 0]);
    for bytes in [&following, &fixed] {
        let both = with_bytes(bytes, &[bad_command, bad_cap]);
        assert_eq!(refused(&both[..MARKS[0] + 1]), 4);
        let cap = with_bytes(bytes, &[bad_cap]);
        assert_eq!(refused(&cap[..MARKS[0] + 1]), 5);
        assert_eq!(refused(&cap), 6);
    }
}

/// A law's numbers at and beyond their ends: place after the mark, bytes, refusal.
fn law_numbers() -> Vec<(usize, Vec<u8>, u8)> {
    let two = |value: i32| (value as u16).to_be_bytes().to_vec();
    let four = |value: i32| value.to_be_bytes().to_vec();
    let mut list = Vec::new();
    for (value, number) in [(-1_001, 10), (-1_000, 0), (1_000, 0), (1_001, 10)] {
        list.push((LAW, two(value), number));
        list.push((LAW + 2, two(value), number));
        list.push((CONSTANT, four(value * 100_000), number));
    }
    list.push((CONSTANT, four(-100_000_001), 10));
    list.push((CONSTANT, four(100_000_001), 10));
    for (value, number) in [(0, 10), (1, 0), (4_096, 0), (4_097, 10), (-1, 10)] {
        list.push((DIVISOR, two(value), number));
    }
    list
}

#[test]
fn law_numbers_at_their_ends() {
    let (following, fixed) = both_kinds();
    for mark in MARKS {
        for (at, new, number) in law_numbers() {
            let bytes = with_bytes(&following, &[(mark + at, &new)]);
            assert_eq!(refused(&bytes), number, "{mark} {at} {new:?}");
            let Ok(read) = sheet::read(&bytes) else {
                continue;
            };
            let mut written = vec![0; bytes.len()];
            assert_eq!(sheet::write(&read, &mut written, 0), Ok(bytes.len()));
            assert_eq!(written, bytes);
        }
    }
    // A `BD` sheet has rows at these places.
    assert_eq!(
        refused(&with_bytes(&fixed, &[(MARKS[0] + LAW, &[3, 233])])),
        10
    );
}

/// Damages of `following_three` in the order in which they are found, but for two at one place.
fn damages_with_laws() -> Vec<Damage> {
    let int = |value: i32| value.to_be_bytes().to_vec();
    let mut list = vec![
        (1, 0, b"XH".to_vec()),
        (2, 2, vec![7]),
        (3, 10, vec![0, 0]),
        (4, 16, int(10_001)),
        (5, MARKS[0], b"BD".to_vec()),
        (6, 22, vec![3, 233]),
    ];
    for (k, mark) in MARKS.into_iter().enumerate() {
        if k > 0 {
            list.push((7, mark, b"BD".to_vec()));
        }
        list.push((8, mark + 2, int(2_000_001)));
        list.push((9, mark + 6, int(1)));
        list.push((10, mark + LAW, vec![3, 233]));
        list.push((10, mark + LAW + 2, vec![252, 23]));
        list.push((10, mark + CONSTANT, int(100_000_001)));
        list.push((10, mark + DIVISOR, vec![0, 0]));
        list.push((10, mark + LATER_B, vec![3, 233]));
    }
    let sheet = following_three();
    list.push((7, record(&sheet, 0), b"BF".to_vec()));
    list.push((11, record(&sheet, 0) + 14, int(2_000_001)));
    list.push((20, record(&sheet, 1) + 2, int(-100)));
    list.push((22, record(&sheet, 3) + 6, int(10)));
    list
}

#[test]
fn the_readers_order_with_laws() {
    let bytes = bytes_of(&following_three());
    let damages = damages_with_laws();
    let damaged = |damages: &[&Damage]| {
        let others: Vec<(usize, &[u8])> = damages.iter().map(|d| (d.1, &d.2[..])).collect();
        refused(&with_bytes(&bytes, &others))
    };
    assert_eq!(damaged(&[]), 0);
    for (i, first) in damages.iter().enumerate() {
        assert_eq!(damaged(&[first]), first.0, "{first:?}");
        for second in &damages[i + 1..] {
            assert_eq!(damaged(&[first, second]), first.0, "{first:?} {second:?}");
        }
    }
}

/// Slots of the values: the first band, and in a band the law.
const BAND_SLOTS: usize = 15;
const BAND_SIZE: usize = 71;
const LAW_SLOTS: usize = 3;
const DIVISOR_SLOT: usize = LAW_SLOTS + 7;

/// The writer's refusal of `following_three` with other numbers in some slots, with room or without.
fn written_with(others: &[(usize, i32)], room: usize) -> u8 {
    let mut numbers = following_three().numbers();
    for &(slot, number) in others {
        numbers[slot] = number;
    }
    let mut buffer = vec![7; room];
    let written = sheet::write(&Sheet::from_numbers(&numbers), &mut buffer, 0);
    assert!(written.is_ok() || buffer == vec![7; room]);
    written.err().map_or(0, Refusal::number)
}

/// The same with just enough room; room comes last.
fn written_in_order(others: &[(usize, i32)]) -> u8 {
    let number = written_with(others, following_three().length());
    let without_room = if number == 0 { 17 } else { number };
    assert_eq!(written_with(others, 0), without_room);
    number
}

/// Law numbers at and beyond their ends: place in the law's slots, value, refusal. n is 2.
const WRITTEN_LAWS: [(usize, i32, u8); 16] = [
    (0, -1_001, 10),
    (0, -1_000, 0),
    (1, 1_000, 0),
    (1, 1_001, 10),
    (2, 1_001, 0),
    (5, i32::MIN, 0),
    (6, -100_000_001, 10),
    (6, -100_000_000, 0),
    (6, 100_000_000, 0),
    (6, 100_000_001, 10),
    (7, -1, 10),
    (7, 1, 0),
    (7, 4_096, 0),
    (7, 4_097, 10),
    (7, 65_540, 10),
    (7, i32::MIN, 10),
];

#[test]
fn the_writer_and_law_numbers() {
    assert_eq!(written_in_order(&[]), 0);
    for k in 0..2 {
        let band = BAND_SLOTS + k * BAND_SIZE;
        for (at, value, number) in WRITTEN_LAWS {
            let given = written_in_order(&[(band + LAW_SLOTS + at, value)]);
            assert_eq!(given, number, "{k} {at} {value}");
        }
        // After the edge and the safety range, with the rows.
        let bad = (band + DIVISOR_SLOT, 4_097);
        assert_eq!(written_in_order(&[bad, (band, 2_000_001)]), 8);
        assert_eq!(written_in_order(&[bad, (band + 1, 9)]), 9);
        assert_eq!(written_in_order(&[bad, (band + 2, -9)]), 9);
        assert_eq!(written_in_order(&[bad, (band + 11, 1_001)]), 10);
    }
    let second = BAND_SLOTS + BAND_SIZE;
    let later_divisor = second + DIVISOR_SLOT;
    let first_law = (BAND_SLOTS + LAW_SLOTS, 1_001);
    assert_eq!(written_in_order(&[first_law, (second, 0)]), 10);
    assert_eq!(
        written_in_order(&[(later_divisor, 0), (second, -2_000_000)]),
        8
    );
    // A later band's divisor 0 is a bad one; beyond the count none is looked at.
    assert_eq!(written_in_order(&[(later_divisor, 0)]), 10);
    assert_eq!(written_in_order(&[(later_divisor + BAND_SIZE, -1)]), 0);
}

#[test]
fn a_value_with_the_first_divisor_0_has_no_law() {
    let (_, fixed) = both_kinds();
    let mut numbers = following_three().numbers();
    for k in 0..BANDS {
        let law = BAND_SLOTS + k * BAND_SIZE + LAW_SLOTS;
        numbers[law..law + 8].fill(i32::MIN + k as i32);
    }
    numbers[BAND_SLOTS + DIVISOR_SLOT] = 0;
    let rubbish = Sheet::from_numbers(&numbers);
    assert_eq!(rubbish.kind(), Kind::Fixed);
    let mut written = vec![0; fixed.len()];
    assert_eq!(sheet::write(&rubbish, &mut written, 0), Ok(fixed.len()));
    assert_eq!(written, fixed);
    let read = sheet::read(&fixed).expect("a sheet");
    assert!(read == rubbish);
    assert!(read != following_three());
    // The same answers, at each state and to a question.
    let question = Question {
        allowance: 100,
        span: CommandRange::default(),
        measured: sides((-950, -940), (2, 8)),
    };
    let answer = |sheet| decide_watched(sheet, &question, Faults::default(), &mut NoWatch);
    assert_eq!(answer(&rubbish), answer(&read));
    assert_eq!(plain_commands(&rubbish, &padded([1, 2])), Some(span(0, 0)));
}

#[test]
fn sameness_with_laws() {
    let sheet = following_three();
    for slot in BAND_SLOTS..BAND_SLOTS + 3 * BAND_SIZE {
        let (k, inner) = (
            (slot - BAND_SLOTS) / BAND_SIZE,
            (slot - BAND_SLOTS) % BAND_SIZE,
        );
        if !(LAW_SLOTS..LAW_SLOTS + 8).contains(&inner) {
            continue;
        }
        let mut numbers = sheet.numbers();
        numbers[slot] += 1;
        let beyond = k == 2 || (LAW_SLOTS + 2..LAW_SLOTS + 6).contains(&inner);
        assert_eq!(Sheet::from_numbers(&numbers) == sheet, beyond, "{slot}");
    }
}

/// Guards with another rule for the ends of a law's commands.
macro_rules! guards_by_rules {
    ($($name:ident $rule:ident),*) => {$(
        #[derive(Default)]
        struct $name;

        impl Watch for $name {
            const RULE: Rule = Rule::$rule;
        }
    )*};
}

guards_by_rules!(
    ByParts Parts,
    OverWhole LawOverWhole,
    InTheMiddle LawInTheMiddle,
    FromItsLeast LawFromItsLeast,
    WithinTheHead LawWithinTheHead
);

/// A machine of n variables and some bands whose laws follow the state, with a no-go box beside its
/// recovery box on either side.
fn law_machine(numbers: &mut Numbers, n: usize) -> Sheet {
    let mut sheet = still(n, &[]);
    (sheet.delta, sheet.alpha) = (numbers.between(1, 3), numbers.between(1, 4));
    sheet.rho = numbers.between(1, 8);
    sheet.commands = span(-9, 9);
    sheet.band_variable = numbers.between(0, n as i32 - 1);
    sheet.band_count = numbers.between(1, 3);
    for (k, band) in sheet.bands[..3].iter_mut().enumerate() {
        band.edge = [FIRST_EDGE, -4, 5][k];
        let least = numbers.between(-9, 9);
        band.safety = span(least, numbers.between(least, 9));
        band.law = law([(); VARIABLES].map(|()| numbers.between(-6, 6)), 0, 1);
        (band.law.constant, band.law.divisor) = (numbers.between(-40, 40), numbers.between(1, 12));
        for (i, row) in band.rows.iter_mut().enumerate() {
            row.a[i] = numbers.between(-6, 0);
            (row.b, row.d, row.q) = (numbers.between(-9, 9), numbers.between(0, 3), 16);
        }
    }
    sheet.recovery = box_of(&[(-20, 20); VARIABLES][..n]);
    sheet.unsafe_count = 2;
    sheet.unsafe_boxes[..2].fill(box_of(&[(-60, 60); VARIABLES][..n]));
    for (unsafe_box, beside) in sheet.unsafe_boxes.iter_mut().zip([(-60, -26), (26, 60)]) {
        (unsafe_box.lower[0], unsafe_box.upper[0]) = beside;
    }
    sheet
}

/// Such a machine with its recovery box anywhere.
fn law_machine_anywhere(numbers: &mut Numbers, n: usize) -> Sheet {
    let mut sheet = law_machine(numbers, n);
    for i in 0..n {
        let lower = numbers.between(-25, 0);
        sheet.recovery.lower[i] = lower.into();
        sheet.recovery.upper[i] = (lower + numbers.between(12, 40)).into();
    }
    sheet
}

/// Any question about such a machine.
fn any_question(numbers: &mut Numbers, n: usize) -> Question {
    let least = numbers.between(-9, 9);
    Question {
        allowance: 1_000_000,
        span: span(least, numbers.between(least, 9)),
        measured: box_of(&[(); VARIABLES].map(|()| numbers.pair((-20, 10), 12))[..n]),
    }
}

/// A run as in `comes_back`, in which each variable takes all its least or all its greatest changes and
/// each tick the least or the greatest command of its law.
fn leans_back(numbers: &mut Numbers, sheet: &Sheet, question: &Question) -> bool {
    let mut either = || numbers.between(0, 1) as usize;
    let at = &question.measured;
    let mut state: State = std::array::from_fn(|i| [at.lower[i], at.upper[i]][either()]);
    let (leans, end) = ([(); VARIABLES].map(|()| either()), either());
    for time in 0..sheet.delta + sheet.alpha {
        let commands = if time < sheet.delta {
            question.span
        } else {
            plain_commands(sheet, &state).expect("a band")
        };
        let (command, before) = ([commands.least, commands.greatest][end], state);
        for i in 0..sheet.n() {
            let changes = allowed_change(sheet, &before, command, i).expect("a band");
            state[i] += [changes.0, changes.1][leans[i]];
        }
        if sheet.unsafe_boxes().iter().any(|u| u.holds(&state)) {
            return false;
        }
    }
    sheet.recovery.holds(&state)
}

/// What a guard with some rule does on machines with laws: its decisions, and how many runs were made
/// behind its keeps and how many of them went wrong.
#[derive(Default)]
struct Judged {
    decisions: Vec<Decision>,
    made: u32,
    wrong: u32,
}

fn judged<W: Watch + Default>() -> Judged {
    let (mut numbers, mut judged) = (Numbers(9), Judged::default());
    for turn in 0..12_000 {
        let n = turn % VARIABLES + 1;
        let sheet = law_machine_anywhere(&mut numbers, n);
        let question = any_question(&mut numbers, n);
        let decision = decide_watched(&sheet, &question, Faults::default(), &mut W::default());
        judged.decisions.push(decision);
        // The same numbers for each rule, whatever it keeps.
        let mut run_numbers = Numbers(turn as u64);
        let kept = matches!(decision, Decision::Keep { .. });
        for _ in 0..if kept { 20 } else { 0 } {
            judged.made += 1;
            judged.wrong += u32::from(!leans_back(&mut run_numbers, &sheet, &question));
        }
    }
    judged
}

#[test]
fn behind_a_keep_any_plain_command_may_be_used() {
    let right = judged::<ByParts>();
    assert!(
        right.made > 10_000 && right.wrong == 0,
        "{} {}",
        right.made,
        right.wrong
    );
    for wrong in [
        judged::<InTheMiddle>(),
        judged::<FromItsLeast>(),
        judged::<WithinTheHead>(),
    ] {
        assert!(wrong.wrong > 10, "{} {}", wrong.made, wrong.wrong);
        assert!(wrong.decisions != right.decisions);
    }
    // Over the whole neighborhood no state is lost, but the answers are others.
    let wider = judged::<OverWhole>();
    assert_eq!(wider.wrong, 0);
    let pairs = right.decisions.iter().zip(&wider.decisions);
    assert!(pairs.filter(|(right, wider)| right != wider).count() > 20);
}

/// Ticks of the plain law from a state, or of the span where there is one. Answers whether the machine
/// kept clear of the no-go boxes.
fn stays_clear(
    numbers: &mut Numbers,
    sheet: &Sheet,
    state: &mut State,
    kept: Option<CommandRange>,
) -> bool {
    for _ in 0..sheet.delta {
        let plain = plain_commands(sheet, state).expect("a band");
        let commands = kept.unwrap_or(plain);
        let command = numbers.between(commands.least, commands.greatest);
        tick(numbers, sheet, state, command);
        if sheet.unsafe_boxes().iter().any(|u| u.holds(state)) {
            return false;
        }
    }
    true
}

/// A question whose measured box holds the state.
fn question_around(numbers: &mut Numbers, n: usize, state: &State) -> Question {
    let mut question = any_question(numbers, n);
    for (i, &x) in state.iter().enumerate().take(n) {
        question.measured.lower[i] = x - i64::from(numbers.between(0, 2));
        question.measured.upper[i] = x + i64::from(numbers.between(0, 2));
    }
    question
}

#[test]
fn whole_runs_of_machines_with_laws_stay_clear() {
    let (mut numbers, mut kept, mut handed_over) = (Numbers(10), 0, 0);
    for turn in 0..3_000 {
        let n = turn % VARIABLES + 1;
        let sheet = law_machine(&mut numbers, n);
        let check = check_recovery_watched(&sheet, &mut NoWatch);
        if !matches!(check, RecoveryCheck::Pass { .. }) {
            continue;
        }
        let mut state = State::default();
        for x in &mut state[..n] {
            *x = numbers.between(-20, 20).into();
        }
        for _ in 0..40 {
            let question = question_around(&mut numbers, n, &state);
            let decision = decide_watched(&sheet, &question, Faults::default(), &mut NoWatch);
            let keep = matches!(decision, Decision::Keep { .. });
            *if keep { &mut kept } else { &mut handed_over } += 1;
            let span = keep.then_some(question.span);
            assert!(stays_clear(&mut numbers, &sheet, &mut state, span));
        }
    }
    assert!(kept > 1_000 && handed_over > 100, "{kept} {handed_over}");
}
