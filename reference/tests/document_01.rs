//! The checks of document 01 against the second guard: sheet A and its six lines,
//! every refusal, the order of refusals, and the round trip of writer and reader.

use second_guard::boxes::{StateBox, VARIABLES};
use second_guard::decision::{
    check_recovery, decide, decide_watched, read_question, trace, trace_recovery, Decision, Faults,
    Question, RecoveryCheck,
};
use second_guard::listing::listing;
use second_guard::machine::{
    allowed_change, band_of, bands_met, ceil_div, floor_div, greatest_change, least_change,
};
use second_guard::reach::{reach, Law, NoWatch, Reach};
use second_guard::sheet::{self, CommandRange, Kind, Refusal, Row, Sheet, NUMBERS};

/// Sheet A, written by hand from its values.
#[rustfmt::skip]
const SHEET_A: [u8; 70] = [
    b'S', b'H', 1, 1, 1, 0,     // n, bands, no-go boxes, band variable
    0, 4, 0, 4, 0, 4,           // delta, alpha, rho
    255, 255, 255, 231,         // least command -25
    0, 0, 0, 25,                // greatest command 25
    0, 5,                       // cap
    b'B', b'D',
    255, 225, 123, 128,         // edge -2,000,000
    0, 0, 0, 0, 0, 0, 0, 0,     // safety 0..0
    255, 255,                   // a = -1
    0, 4,                       // b = 4
    0, 0, 0, 0,                 // c = 0
    0, 0, 0, 0,                 // d = 0
    0, 20,                      // q = 20
    b'N', b'G',
    0, 0, 0, 130,               // no-go from 130
    0, 30, 132, 128,            // to 2,000,000
    b'R', b'C',
    255, 255, 255, 156,         // recovery from -100
    0, 0, 0, 100,               // to 100
];

fn question(allowance: u32, command: i32, sides: &[(i32, i32)]) -> Vec<u8> {
    let mut bytes = b"QS".to_vec();
    bytes.extend(allowance.to_be_bytes());
    bytes.extend(command.to_be_bytes());
    for (lower, upper) in sides {
        bytes.extend(lower.to_be_bytes());
        bytes.extend(upper.to_be_bytes());
    }
    bytes
}

fn five_questions() -> [Vec<u8>; 5] {
    [
        question(100, 25, &[(0, 0)]),
        question(100, 25, &[(95, 100)]),
        question(4, 25, &[(95, 100)]),
        question(100, 0, &[(131, 131)]),
        question(100, 26, &[(0, 0)]),
    ]
}

/// These numbers, and 0 for the variables beyond them.
fn padded<T: Copy + Default, const M: usize>(first: [T; M]) -> [T; VARIABLES] {
    let mut all = [T::default(); VARIABLES];
    all[..M].copy_from_slice(&first);
    all
}

fn interval(lower: i64, upper: i64) -> StateBox {
    StateBox {
        lower: padded([lower]),
        upper: padded([upper]),
    }
}

fn sheet_a() -> Sheet {
    sheet::read(&SHEET_A).expect("sheet A is accepted")
}

fn written(sheet: &Sheet) -> Vec<u8> {
    let mut bytes = vec![0; 1_100];
    let length = sheet::write(sheet, &mut bytes, 0).expect("the sheet is written");
    bytes.truncate(length);
    bytes
}

/// A sheet with two variables, two bands and two no-go boxes.
fn sheet_of_two() -> Sheet {
    let mut sheet = sheet_a();
    sheet.variables = 2;
    sheet.band_count = 2;
    sheet.unsafe_count = 2;
    sheet.band_variable = 1;
    sheet.caps = padded([5, 7]);
    let row = Row {
        a: padded([-1, 2]),
        b: 4,
        c: -3,
        d: 1,
        q: 20,
    };
    sheet.bands[0].rows = padded([row, row]);
    sheet.bands[1] = sheet.bands[0];
    sheet.bands[1].edge = 0;
    let sides = |lower, upper| StateBox {
        lower: padded([lower, lower]),
        upper: padded([upper, upper]),
    };
    sheet.unsafe_boxes[0] = sides(-2_000_000, -130);
    sheet.unsafe_boxes[1] = sides(130, 2_000_000);
    sheet.recovery = sides(-100, 100);
    sheet
}

// The starred checks.

#[test]
fn six_lines() {
    let asks = five_questions().concat();
    assert_eq!(
        listing(&SHEET_A, &asks),
        "sheet pass 4 1\n1 keep 4 4\n2 keep 4 5\n3 over spent 4 4\n4 over finest 1 5\n5 refused 14\n"
    );
}

#[test]
fn six_answers() {
    assert_eq!(
        check_recovery(&SHEET_A),
        RecoveryCheck::Pass {
            width: 4,
            rounds: 1
        }
    );
    let keep = |width, rounds| Decision::Keep { width, rounds };
    let expected = [
        keep(4, 4),
        keep(4, 5),
        Decision::Spent {
            width: 4,
            rounds: 4,
        },
        Decision::Finest {
            width: 1,
            rounds: 5,
        },
        Decision::Refused(Refusal::Command),
    ];
    for (question, expected) in five_questions().iter().zip(expected) {
        assert_eq!(decide(&SHEET_A, question), expected);
    }
}

#[test]
fn packed_answers() {
    let packed: Vec<u64> = five_questions()
        .iter()
        .map(|q| decide(&SHEET_A, q).pack())
        .collect();
    let number = |code: u64, width: u64, rounds: u64| {
        code * 281_474_976_710_656 + width * 4_294_967_296 + rounds
    };
    assert_eq!(
        packed,
        [
            number(0, 4, 4),
            number(0, 4, 5),
            number(2, 4, 4),
            number(1, 1, 5),
            number(3, 14, 0),
        ]
    );
    assert_eq!(check_recovery(&SHEET_A).pack(), number(0, 4, 1));
    assert_eq!(check_recovery(&SHEET_A[..69]).pack(), number(3, 5, 0));
    let mut failing = sheet_a();
    failing.recovery = interval(1, 2);
    let packed = check_recovery(&written(&failing)).pack();
    assert_eq!(packed >> 32, (1 << 16) + 1);
}

/// Both quotients, under a cap that they are far from.
fn quotients(numerator: i64, q: i32) -> (i64, i64) {
    let cap = 1_000;
    (floor_div(numerator, q, cap), ceil_div(numerator, q, cap))
}

#[test]
fn floor_and_ceiling() {
    assert_eq!(quotients(-131, 20), (-7, -6));
    assert_eq!(quotients(-7, 2), (-4, -3));
    assert_eq!(quotients(7, 2), (3, 4));
    assert_eq!(quotients(-8, 2), (-4, -4));
    assert_eq!(quotients(0, 7), (0, 0));
    assert_eq!(quotients(-1, 4_096), (-1, 0));
    assert_eq!(quotients(1, 4_096), (0, 1));
    for numerator in -50..=50_i64 {
        for q in 1..=9 {
            let (floor, ceil) = quotients(numerator, q);
            let divisor = i64::from(q);
            assert!(floor * divisor <= numerator && numerator < (floor + 1) * divisor);
            assert!((ceil - 1) * divisor < numerator && numerator <= ceil * divisor);
        }
    }
}

#[test]
fn clamped_change() {
    let sheet = sheet_a();
    let row = &sheet.bands[0].rows[0];
    let changes = |cap| {
        (
            least_change(row, -131, cap),
            greatest_change(row, -131, cap),
        )
    };
    assert_eq!(changes(7), (-7, -6));
    assert_eq!(changes(6), (-6, -6));
    assert_eq!(changes(5), (-5, -5));
    assert_eq!(allowed_change(&sheet, &padded([131]), 0, 0), Some((-5, -5)));
    assert_eq!(allowed_change(&sheet, &padded([0]), 25, 0), Some((5, 5)));
    assert_eq!(allowed_change(&sheet, &padded([1]), 0, 0), Some((-1, 0)));
    assert_eq!(allowed_change(&sheet, &padded([-1]), 0, 0), Some((0, 1)));
    assert_eq!(allowed_change(&sheet, &padded([-2_000_001]), 0, 0), None);
    let mut spread = sheet;
    spread.bands[0].rows[0].d = 30;
    assert_eq!(allowed_change(&spread, &padded([1]), 0, 0), Some((-2, 2)));
}

#[test]
fn boxes_of_the_first_question() {
    let sheet = sheet_a();
    let question = read_question(&sheet, &five_questions()[0]).unwrap();
    let trace = trace(&sheet, &question, 4, Faults::default());
    assert!(trace.succeeded);
    assert_eq!(trace.rounds, 4);
    assert_eq!(trace.steps.len(), 2);
    let [first, second] = [trace.steps[0], trace.steps[1]];
    assert_eq!(first.law, Law::command(25));
    assert_eq!((first.ticks, first.end), (4, interval(16, 20)));
    assert_eq!(first.swept, interval(0, 20));
    assert_eq!(second.law, Law::Baseline);
    assert_eq!(second.start, interval(16, 20));
    assert_eq!((second.ticks, second.end), (4, interval(12, 20)));
    assert_eq!(second.swept, interval(12, 20));
    assert_eq!(first.rounds + second.rounds, 4);

    let under_command = reach(&sheet, 4, 4, Law::command(25), &interval(0, 0)).unwrap();
    assert_eq!(under_command.end, interval(16, 20));
    let baseline = reach(&sheet, 4, 4, Law::Baseline, &under_command.end).unwrap();
    assert_eq!(baseline.end, interval(12, 20));
    assert_eq!(under_command.rounds + baseline.rounds, 4);
}

#[test]
fn allowance_zero() {
    assert_eq!(
        decide(&SHEET_A, &question(0, 25, &[(0, 0)])),
        Decision::Spent {
            width: 4,
            rounds: 0
        }
    );
}

#[test]
fn swept_to_129_and_130() {
    let unsafe_box = interval(130, 2_000_000);
    assert!(!interval(0, 129).meets(&unsafe_box));
    assert!(interval(0, 130).meets(&unsafe_box));
    assert!(unsafe_box.meets(&interval(0, 130)));

    // The same within a decision: +5 a tick under command 25, -5 a tick under the plain law.
    let mut sheet = sheet_a();
    sheet.bands[0].rows[0].a[0] = 0;
    sheet.bands[0].safety.least = -25;
    sheet.bands[0].safety.greatest = -25;
    sheet.recovery = interval(0, 129);
    sheet.unsafe_boxes[0] = interval(130, 130);
    let bytes = written(&sheet);
    let under_push = |from: i32| decide(&bytes, &question(100, 25, &[(from, from)]));
    let swept = |from: i64| reach(&sheet, 4, 4, Law::command(25), &interval(from, from)).unwrap();
    assert_eq!(swept(109).swept, interval(109, 129));
    assert!(matches!(under_push(109), Decision::Keep { width: 4, .. }));
    assert_eq!(swept(110).swept, interval(110, 130));
    assert!(matches!(under_push(110), Decision::Finest { width: 1, .. }));
}

#[test]
fn band_edges() {
    let mut sheet = sheet_of_two();
    assert_eq!(band_of(&sheet, -1), Some(0));
    assert_eq!(band_of(&sheet, 0), Some(1));
    assert_eq!(band_of(&sheet, -2_000_000), Some(0));
    assert_eq!(band_of(&sheet, -2_000_001), None);
    assert_eq!(band_of(&sheet, 3_000_000), Some(1));
    assert_eq!(bands_met(&sheet, -5, -1), 0..1);
    assert_eq!(bands_met(&sheet, -5, 0), 0..2);
    assert_eq!(bands_met(&sheet, 0, 5), 1..2);
    sheet.band_count = 3;
    sheet.bands[2] = sheet.bands[1];
    sheet.bands[2].edge = 1;
    assert_eq!(bands_met(&sheet, -1, 1), 0..3);
    assert_eq!(bands_met(&sheet, 0, 0), 1..2);
    assert_eq!(bands_met(&sheet, 1, 9), 2..3);
}

// The checks without a star.

#[test]
fn delta_and_alpha() {
    let mut sheet = sheet_a();
    for (delta, alpha, accepted) in [
        (500, 500, true),
        (1, 999, true),
        (999, 1, true),
        (500, 501, false),
        (1, 1_000, false),
        (1_000, 1, false),
        (0, 4, false),
        (4, 0, false),
        (65_535, 65_535, false),
    ] {
        sheet.delta = delta;
        sheet.alpha = alpha;
        let mut bytes = SHEET_A;
        bytes[6..8].copy_from_slice(&(delta as u16).to_be_bytes());
        bytes[8..10].copy_from_slice(&(alpha as u16).to_be_bytes());
        let refused = Some(Refusal::Times).filter(|_| !accepted);
        assert_eq!(sheet::read(&bytes).err(), refused, "{delta} {alpha}");
        assert_eq!(sheet::write(&sheet, &mut [0; 70], 0).err(), refused);
    }
    sheet.delta = i32::MAX;
    sheet.alpha = i32::MAX;
    assert_eq!(sheet::write(&sheet, &mut [0; 70], 0), Err(Refusal::Times));
}

#[test]
fn lengths() {
    assert_eq!(sheet::read(&SHEET_A[..19]).err(), Some(Refusal::Head));
    assert_eq!(sheet::read(&[]).err(), Some(Refusal::Head));
    assert_eq!(sheet::read(&SHEET_A[..20]).err(), Some(Refusal::Length));
    assert_eq!(sheet::read(&SHEET_A[..69]).err(), Some(Refusal::Length));
    let longer = [&SHEET_A[..], &[0]].concat();
    assert_eq!(longer.len(), 71);
    assert_eq!(sheet::read(&longer).err(), Some(Refusal::Length));
    assert_eq!(sheet::length(Kind::Fixed, 1, 1, 1), 70);
    assert_eq!(sheet::length(Kind::Fixed, 4, 8, 8), 1_086);
}

// The shortcuts that let the sledge through.

#[test]
fn rates_over_the_whole_box_would_fail() {
    // With the neighborhood as deep as the box, sheet A's recovery check would not contract.
    let sheet = sheet_a();
    let step = trace_recovery(&sheet, 4).steps[0];
    assert_eq!(step.end, interval(-88, 88));
}

#[test]
fn neighborhoods_are_measured_from_the_start_box() {
    // Start 0..100, cap 2, k = 4: the lower neighborhood ends at 10, so the change there is
    // 9 - 10. E grows to -3; measured from E it would end at 7, and the face would rise.
    let mut sheet = sheet_a();
    sheet.caps[0] = 2;
    sheet.bands[0].rows[0] = Row {
        a: padded([-1]),
        b: 0,
        c: 9,
        d: 0,
        q: 1,
    };
    assert_eq!(
        reach(&sheet, 4, 4, Law::Baseline, &interval(0, 100)),
        Ok(Reach {
            end: interval(-4, 92),
            swept: interval(-4, 100),
            rounds: 2
        })
    );
    // The same at the upper face.
    sheet.bands[0].rows[0].c = 91;
    assert_eq!(
        reach(&sheet, 4, 4, Law::Baseline, &interval(0, 100)),
        Ok(Reach {
            end: interval(8, 104),
            swept: interval(0, 104),
            rounds: 2
        })
    );
}

#[test]
fn faults_change_answers() {
    let sheet = {
        // A thin no-go box that one step of four ticks jumps over.
        let mut sheet = sheet_a();
        sheet.unsafe_boxes[0] = interval(8, 8);
        sheet
    };
    let question = Question {
        allowance: 1_000,
        span: CommandRange::one(25),
        measured: interval(0, 0),
    };
    let with = |faults| decide_watched(&sheet, &question, faults, &mut NoWatch);
    assert!(matches!(
        with(Faults::default()),
        Decision::Finest { width: 1, .. }
    ));
    assert!(matches!(
        with(Faults {
            end_boxes_only: true,
            ..Faults::default()
        }),
        Decision::Keep { width: 4, .. }
    ));
    // Pushed from 0 it ends at 12..20, outside a recovery box up to 5; from the measured box
    // the plain law would stay at 0.
    let mut sheet = sheet_a();
    sheet.recovery = interval(-100, 5);
    let with = |faults| decide_watched(&sheet, &question, faults, &mut NoWatch);
    assert!(matches!(with(Faults::default()), Decision::Finest { .. }));
    assert!(matches!(
        with(Faults {
            baseline_from_measured: true,
            ..Faults::default()
        }),
        Decision::Keep { .. }
    ));
}

// Reaches.

#[test]
fn reach_of_no_ticks() {
    let start = interval(-7, 9);
    let reached = reach(&sheet_a(), 0, 1, Law::Baseline, &start).unwrap();
    assert_eq!(
        reached,
        Reach {
            end: start,
            swept: start,
            rounds: 0
        }
    );
}

#[test]
fn reach_refusals_in_order() {
    let sheet = sheet_a();
    let good = interval(-1_000_000, 1_000_000);
    let bad = [
        interval(1, 0),
        interval(-1_000_001, 0),
        interval(0, 1_000_001),
    ];
    for (ticks, width) in [(1_001, 1), (1, 0), (1, 1_001), (0, 0), (u32::MAX, u32::MAX)] {
        for law in [Law::Baseline, Law::command(25), Law::command(26)] {
            for start in [good, bad[0]] {
                assert_eq!(
                    reach(&sheet, ticks, width, law, &start),
                    Err(Refusal::Reach)
                );
            }
        }
    }
    for ticks in [0, 1, 1_000] {
        for width in [1, 1_000] {
            for command in [-26, 26] {
                for start in [good, bad[0]] {
                    assert_eq!(
                        reach(&sheet, ticks, width, Law::command(command), &start),
                        Err(Refusal::Command)
                    );
                }
            }
            for law in [Law::Baseline, Law::command(-25), Law::command(25)] {
                for start in &bad {
                    assert_eq!(reach(&sheet, ticks, width, law, start), Err(Refusal::Start));
                }
                assert!(reach(&sheet, ticks, width, law, &good).is_ok());
            }
        }
    }
}

#[test]
fn width_one_takes_one_round_per_tick() {
    let reached = reach(&sheet_a(), 9, 1, Law::command(25), &interval(0, 0)).unwrap();
    assert_eq!(reached.rounds, 9);
}

// Refusals of sheets.

/// A place to damage: the number it is refused with, where it lies, and the bytes put there.
struct Damage {
    number: u8,
    at: usize,
    bytes: Vec<u8>,
}

fn damage(number: u8, at: usize, bytes: &[u8]) -> Damage {
    Damage {
        number,
        at,
        bytes: bytes.to_vec(),
    }
}

fn int(value: i32) -> [u8; 4] {
    value.to_be_bytes()
}

/// Damages of the sheet of two in the order in which they are found; 5 adds a byte.
fn damages() -> Vec<Damage> {
    const BAND_1: usize = 24;
    const BAND_2: usize = BAND_1 + 46;
    const BOX_1: usize = BAND_2 + 46;
    const BOX_2: usize = BOX_1 + 18;
    const RECOVERY: usize = BOX_2 + 18;
    let mut list = vec![
        damage(1, 0, b"XH"),
        damage(2, 3, &[9]),
        damage(3, 10, &[0, 0]),
        damage(4, 16, &int(10_001)),
        damage(5, 0, b""),
        damage(6, 22, &[3, 233]),
    ];
    for band in [BAND_1, BAND_2] {
        list.push(damage(7, band + 1, b"X"));
        let edge = if band == BAND_1 {
            -1_999_999
        } else {
            -2_000_000
        };
        list.push(damage(8, band + 2, &int(edge)));
        list.push(damage(9, band + 6, &int(1)));
        list.push(damage(10, band + 14 + 16 + 2, &[3, 233]));
    }
    for (at, high) in [
        (BOX_1, 2_000_001),
        (BOX_2, 2_000_001),
        (RECOVERY, 1_000_001),
    ] {
        list.push(damage(7, at, b"XX"));
        list.push(damage(11, at + 14, &int(high)));
    }
    list
}

fn damaged(faults: &[&Damage]) -> Vec<u8> {
    let mut bytes = written(&sheet_of_two());
    for fault in faults {
        bytes[fault.at..fault.at + fault.bytes.len()].copy_from_slice(&fault.bytes);
    }
    for fault in faults {
        if fault.number == 5 {
            bytes.push(0);
        }
    }
    bytes
}

fn refusal_number(bytes: &[u8]) -> u8 {
    sheet::read(bytes).err().map_or(0, Refusal::number)
}

#[test]
fn sheet_of_two_is_accepted() {
    assert_eq!(refusal_number(&damaged(&[])), 0);
    assert_eq!(damaged(&[]).len(), 170);
}

#[test]
fn each_refusal_of_a_sheet() {
    let mut seen = [false; 18];
    for fault in damages() {
        assert_eq!(refusal_number(&damaged(&[&fault])), fault.number);
        seen[usize::from(fault.number)] = true;
    }
    assert!(seen[1..=11].iter().all(|&seen| seen));
}

#[test]
fn order_of_refusals_for_pairs() {
    let damages = damages();
    for (i, first) in damages.iter().enumerate() {
        for second in &damages[i + 1..] {
            assert_eq!(refusal_number(&damaged(&[first, second])), first.number);
            assert_eq!(refusal_number(&damaged(&[second, first])), first.number);
        }
    }
}

#[test]
fn cut_sheets_pair_with_other_faults() {
    for fault in damages() {
        let bytes = damaged(&[&fault]);
        assert_eq!(refusal_number(&bytes[..19]), 1);
        let expected = if fault.number < 5 { fault.number } else { 5 };
        assert_eq!(refusal_number(&bytes[..100]), expected);
    }
}

// The slots of a sheet's numbers, counted by hand: the first two bands; in a band its law's divisor and
// its first two rows; in a row b, c, d and q; the recovery box and the first no-go box, lower sides first.
const BAND_1: usize = 15;
const BAND_2: usize = BAND_1 + 71;
const DIVISOR: usize = 10;
const ROW_1: usize = 11;
const ROW_2: usize = ROW_1 + 10;
const B: usize = 6;
const C: usize = 7;
const D: usize = 8;
const Q: usize = 9;
const RECOVERY: usize = 583;
const BOX_1: usize = 595;

/// Values at and just beyond each bound: slot, value, refusal or 0.
#[test]
fn bounds_of_the_values() {
    let head = [
        (0, 0, 2),
        (0, 7, 2),
        (0, -1, 2),
        (0, 258, 2),
        (1, 0, 2),
        (1, 9, 2),
        (2, 0, 2),
        (2, 9, 2),
        (3, 2, 2),
        (3, -1, 2),
        (3, 0, 0),
        (6, 0, 3),
        (6, 1, 0),
        (6, 1_000, 0),
        (6, 1_001, 3),
        (7, -10_000, 0),
        (7, -10_001, 4),
        (7, 26, 4),
        (7, 1, 9),
        (8, 10_000, 0),
        (8, 10_001, 4),
        (8, -26, 4),
        (8, -1, 9),
        (9, 0, 6),
        (9, 1, 0),
        (10, 1_000, 0),
        (10, 1_001, 6),
        (11, 5_000, 0),
    ];
    let bands = [
        (BAND_1, -2_000_001, 8),
        (BAND_1, -1_999_999, 8),
        (BAND_2, -2_000_000, 8),
        (BAND_2, -1_999_999, 0),
        (BAND_2, 2_000_000, 0),
        (BAND_2, 2_000_001, 8),
        (BAND_2 + 1, -26, 9),
        (BAND_2 + 1, -25, 0),
        (BAND_2 + 1, 1, 9),
        (BAND_2 + 2, 25, 0),
        (BAND_2 + 2, 26, 9),
        (BAND_2 + 2, -1, 9),
        (BAND_2 + ROW_1, -1_000, 0),
        (BAND_2 + ROW_1, -1_001, 10),
        (BAND_2 + ROW_1 + 1, 1_000, 0),
        (BAND_2 + ROW_1 + 1, 1_001, 10),
        (BAND_2 + ROW_1 + 2, 1_001, 0),
        (BAND_2 + ROW_1 + B, 1_001, 10),
        (BAND_2 + ROW_1 + B, -1_000, 0),
        (BAND_2 + ROW_1 + C, -100_000_000, 0),
        (BAND_2 + ROW_1 + C, -100_000_001, 10),
        (BAND_2 + ROW_1 + C, 100_000_000, 0),
        (BAND_2 + ROW_1 + C, 100_000_001, 10),
        (BAND_2 + ROW_1 + D, -1, 10),
        (BAND_2 + ROW_1 + D, 0, 0),
        (BAND_2 + ROW_1 + D, 100_000_000, 0),
        (BAND_2 + ROW_1 + D, 100_000_001, 10),
        (BAND_2 + ROW_1 + Q, 0, 10),
        (BAND_2 + ROW_1 + Q, 1, 0),
        (BAND_2 + ROW_1 + Q, 4_096, 0),
        (BAND_2 + ROW_1 + Q, 4_097, 10),
        (BAND_2 + 71, 7, 0),
    ];
    let boxes = [
        (RECOVERY, -1_000_000, 0),
        (RECOVERY, -1_000_001, 11),
        (RECOVERY + 1, 101, 11),
        (RECOVERY + 1, 100, 0),
        (RECOVERY + 2, 7, 0),
        (RECOVERY + 7, 1_000_000, 0),
        (RECOVERY + 7, 1_000_001, 11),
        (BOX_1, -2_000_001, 11),
        (BOX_1 + 6, -2_000_000, 0),
        (BOX_1 + 12, 2_000_000, 0),
        (BOX_1 + 12, 2_000_001, 11),
        (BOX_1 + 12 + 7, 2_000_001, 11),
        (BOX_1 + 24, i32::MIN, 0),
    ];
    for (slot, value, expected) in head.into_iter().chain(bands).chain(boxes) {
        let mut numbers = sheet_of_two().numbers();
        numbers[slot] = value;
        let sheet = Sheet::from_numbers(&numbers);
        let mut buffer = [0xA5; 400];
        let answer = sheet::write(&sheet, &mut buffer, 3);
        let number = answer.err().map_or(0, Refusal::number);
        assert_eq!(number, expected, "slot {slot} with {value}");
        if number == 0 {
            let length = answer.unwrap();
            let read = sheet::read(&buffer[3..3 + length]).expect("what is written is accepted");
            assert!(read == sheet, "slot {slot} with {value}");
        } else {
            assert_eq!(buffer, [0xA5; 400]);
        }
    }
}

#[test]
fn records_stay_in_their_places() {
    // A no-go record in the place of the recovery record is a wrong mark.
    let mut bytes = written(&sheet_of_two());
    let recovery = bytes.len() - 18;
    bytes[recovery..recovery + 2].copy_from_slice(b"NG");
    assert_eq!(refusal_number(&bytes), 7);
}

// Refusals of questions.

#[test]
fn refusals_of_questions_in_order() {
    let good = question(1_000_000, 25, &[(-1_000_000, 1_000_000)]);
    assert!(!matches!(decide(&SHEET_A, &good), Decision::Refused(_)));
    // In order: mark, allowance, command, side.
    let damages: [(Refusal, usize, Vec<u8>); 4] = [
        (Refusal::Question, 1, b"X".to_vec()),
        (Refusal::Allowance, 2, 1_000_001_u32.to_be_bytes().to_vec()),
        (Refusal::Command, 6, int(-26).to_vec()),
        (Refusal::Start, 10, int(-1_000_001).to_vec()),
    ];
    for (i, (refusal, at, bytes)) in damages.iter().enumerate() {
        let mut question = good.clone();
        question[*at..*at + bytes.len()].copy_from_slice(bytes);
        assert_eq!(decide(&SHEET_A, &question), Decision::Refused(*refusal));
        assert_eq!(
            decide(&SHEET_A, &question[..17]),
            Decision::Refused(Refusal::Question)
        );
        let longer = [&question[..], &[0]].concat();
        assert_eq!(
            decide(&SHEET_A, &longer),
            Decision::Refused(Refusal::Question)
        );
        for (_, at, bytes) in &damages[i + 1..] {
            let mut question = question.clone();
            question[*at..*at + bytes.len()].copy_from_slice(bytes);
            assert_eq!(decide(&SHEET_A, &question), Decision::Refused(*refusal));
        }
        // The sheet comes first.
        let mut sheet = SHEET_A;
        sheet[60] = b'X';
        assert_eq!(decide(&sheet, &question), Decision::Refused(Refusal::Mark));
        assert_eq!(
            check_recovery(&sheet),
            RecoveryCheck::Refused(Refusal::Mark)
        );
    }
    for sides in [(1, 0), (0, 1_000_001), (1_000_001, 1_000_001)] {
        assert_eq!(
            decide(&SHEET_A, &question(1, 0, &[sides])),
            Decision::Refused(Refusal::Start)
        );
    }
    assert_eq!(decide(&SHEET_A, &[]), Decision::Refused(Refusal::Question));
    for command in [-25, 25] {
        let question = question(1, command, &[(0, 0)]);
        assert!(!matches!(decide(&SHEET_A, &question), Decision::Refused(_)));
    }
}

// The writer.

#[test]
fn round_trip() {
    for (sheet, length) in [(sheet_a(), 70), (sheet_of_two(), 170)] {
        let mut buffer = [0x5A; 400];
        assert_eq!(sheet::write(&sheet, &mut buffer, 100), Ok(length));
        assert!(buffer[..100].iter().all(|&byte| byte == 0x5A));
        assert!(buffer[100 + length..].iter().all(|&byte| byte == 0x5A));
        let read = sheet::read(&buffer[100..100 + length]).unwrap();
        assert!(read == sheet);
        assert_eq!(written(&read), buffer[100..100 + length]);
    }
    assert_eq!(written(&sheet_a()), SHEET_A);
}

#[test]
fn values_of_sheet_a() {
    let mut numbers = [0; NUMBERS];
    let values = [
        (0, 1),
        (1, 1),
        (2, 1),
        (4, 4),
        (5, 4),
        (6, 4),
        (7, -25),
        (8, 25),
        (9, 5),
        (BAND_1, -2_000_000),
        (BAND_1 + ROW_1, -1),
        (BAND_1 + ROW_1 + B, 4),
        (BAND_1 + ROW_1 + Q, 20),
        (RECOVERY, -100),
        (RECOVERY + 6, 100),
        (BOX_1, 130),
        (BOX_1 + 6, 2_000_000),
    ];
    for (slot, value) in values {
        numbers[slot] = value;
    }
    assert_eq!(sheet_a().numbers(), numbers);
    assert!(Sheet::from_numbers(&numbers) == sheet_a());
}

#[test]
fn sameness_is_up_to_the_counts() {
    let sheet = sheet_of_two();
    for slot in 0..NUMBERS {
        let mut numbers = sheet.numbers();
        numbers[slot] += 1;
        let other = Sheet::from_numbers(&numbers);
        let counted = match slot {
            0..=10 => true,
            11..=14 => false,
            15..=582 => {
                let (band, inner) = ((slot - BAND_1) / 71, (slot - BAND_1) % 71);
                match inner {
                    0..=2 => band < 2,
                    // With the first band's divisor it is a sheet with other marks.
                    3..=10 => band == 0 && inner == DIVISOR,
                    _ => band < 2 && inner < ROW_1 + 20 && !(2..B).contains(&((inner - 1) % 10)),
                }
            }
            _ => (slot - RECOVERY) / 12 < 3 && (slot - RECOVERY) % 6 < 2,
        };
        assert_eq!(other != sheet, counted, "slot {slot}");
    }
}

#[test]
fn room_is_tested_last() {
    let sheet = sheet_a();
    let mut buffer = [7; 80];
    for place in [11, 80, 81, 1_000, u64::MAX, u64::MAX - 69] {
        assert_eq!(sheet::write(&sheet, &mut buffer, place), Err(Refusal::Room));
        assert_eq!(buffer, [7; 80]);
    }
    assert_eq!(
        sheet::write(&sheet, &mut buffer[..69], 0),
        Err(Refusal::Room)
    );
    assert_eq!(sheet::write(&sheet, &mut [], 0), Err(Refusal::Room));
    assert_eq!(buffer, [7; 80]);
    let mut wrong = sheet;
    wrong.recovery.upper[0] = 1_000_001;
    assert_eq!(
        sheet::write(&wrong, &mut buffer, u64::MAX),
        Err(Refusal::Side)
    );
    assert_eq!(sheet::write(&sheet, &mut buffer, 10), Ok(70));
    assert_eq!(buffer[10..], SHEET_A);
    assert_eq!(buffer[..10], [7; 10]);
}

#[test]
fn writer_tests_in_file_order() {
    // Slot and wrong value, in the order of the file.
    let faults = [
        (1, 0, 2),
        (4, 0, 3),
        (8, 10_001, 4),
        (10, 0, 6),
        (BAND_1, 0, 8),
        (BAND_1 + 1, 7, 9),
        (BAND_1 + ROW_2 + Q, 0, 10),
        (BAND_2, -2_000_000, 8),
        (BAND_2 + 2, -7, 9),
        (BAND_2 + ROW_1 + D, -1, 10),
        (BOX_1 + 7, 2_000_001, 11),
        (RECOVERY + 7, 1_000_001, 11),
    ];
    for (i, &(slot, value, number)) in faults.iter().enumerate() {
        for &(other, wrong, _) in &faults[i..] {
            let mut numbers = sheet_of_two().numbers();
            numbers[other] = wrong;
            numbers[slot] = value;
            let mut buffer = [0; 400];
            let answer = sheet::write(&Sheet::from_numbers(&numbers), &mut buffer, 0);
            assert_eq!(answer.err().map(Refusal::number), Some(number));
            assert_eq!(buffer, [0; 400]);
        }
    }
}

// The listing.

#[test]
fn listings_of_broken_files() {
    let question = question(100, 25, &[(0, 0)]);
    assert_eq!(listing(&[], &question), "sheet refused 1\n");
    assert_eq!(listing(&SHEET_A[..69], &question), "sheet refused 5\n");
    assert_eq!(listing(&SHEET_A, &[]), "sheet pass 4 1\n");
    assert_eq!(
        listing(&SHEET_A, &question[..17]),
        "sheet pass 4 1\n1 refused 12\n"
    );
    let asks = [&question[..], &question[..1]].concat();
    assert_eq!(
        listing(&SHEET_A, &asks),
        "sheet pass 4 1\n1 keep 4 4\n2 refused 12\n"
    );
    // Paper 4 of document 02: after an unknown mark nothing is cut any more.
    let mut wrong = question.clone();
    wrong[0] = b'X';
    let asks = [&wrong[..], &question[..]].concat();
    assert_eq!(listing(&SHEET_A, &asks), "sheet pass 4 1\n1 refused 12\n");
    let mut failing = sheet_a();
    failing.recovery = interval(1, 2);
    let text = listing(&written(&failing), &question);
    assert!(text.starts_with("sheet fail 1 "));
    assert_eq!(text.lines().count(), 1);
}
