//! Is the cable column's sheet true of its machine? As in models.rs; the plain law follows what the drive reads.

mod common;

use common::machines::{allowed, disturbances, extreme, forbidden, kept, measured, state_of, step};
use common::machines::{PARTS, STEPS};
use common::{load, Numbers};
use second_guard::boxes::State;
use second_guard::machine::plain_commands;
use second_guard::sheet::Sheet;
use sheet_tool::questions::AskedQuestion;

const MASS: f64 = 40.0;
const DAMPING: f64 = 400.0;
const SPRING: f64 = 360.0;
/// The height at which the spring holds the carriage, and the pull with which it does.
const REST: f64 = 0.9;
const REST_PULL: f64 = 150.0;
/// The pull follows the command with this time.
const CLUTCH_SECONDS: f64 = 0.05;
const HAND: f64 = 50.0;
/// How far the pull may be off by the clutch, and by the clutch and the plain law's readings.
const CLUTCH: f64 = 5.0;
const CLUTCH_AND_LAW: f64 = 8.0;
/// How far an aim that the drive reads may be off, and what that is worth in the plain law.
const READING: f64 = 0.003;
const LAW: f64 = CLUTCH_AND_LAW - CLUTCH;
const TICK: f64 = 0.005;

/// heading = height + speed / QUICK, aim = heading - (pull - REST_PULL) / AIM.
const QUICK: f64 = 9.0;
const AIM: f64 = 6_840.0;

/// A handle's height, speed and pull, in m, m/s and N.
type Handle = [f64; 3];

/// Height, heading and aim, in m.
fn variables([height, speed, pull]: Handle) -> [f64; 3] {
    let heading = height + speed / QUICK;
    [height, heading, heading - (pull - REST_PULL) / AIM]
}

fn handle([height, heading, aim]: [f64; 3]) -> Handle {
    let pull = REST_PULL + AIM * (heading - aim);
    [height, QUICK * (heading - height), pull]
}

/// The left handle's whole numbers, then the right one's.
fn whole_state(handles: [Handle; 2]) -> State {
    let metres = handles.map(variables).concat();
    let whole: Vec<i64> = metres
        .iter()
        .map(|m| (m * 10_000.0).round() as i64)
        .collect();
    state_of(&whole)
}

/// A tick of one handle under a command that its clutch makes good to within `off`.
fn handle_tick(mut handle: Handle, command: f64, off: f64, numbers: &mut Numbers) -> Handle {
    let seconds = TICK / (PARTS * STEPS) as f64;
    let hands = disturbances(numbers, -HAND, HAND);
    let errors = disturbances(numbers, -off, off);
    for (hand, error) in hands.into_iter().zip(errors) {
        for _ in 0..STEPS {
            handle = step(handle, seconds, |[height, speed, pull]| {
                let spring = SPRING * (height - REST) + pull - REST_PULL;
                let change = (hand - DAMPING * speed - spring) / MASS;
                [speed, change, (command + error - pull) / CLUTCH_SECONDS]
            });
        }
    }
    handle
}

/// A handle within the travel, with any speed and pull that it can have there.
fn random_handle(numbers: &mut Numbers) -> Handle {
    [
        extreme(numbers, 0.2001, 1.5999),
        extreme(numbers, -1.1, 1.1),
        extreme(numbers, 20.0 - CLUTCH_AND_LAW, 280.0 + CLUTCH_AND_LAW),
    ]
}

#[test]
fn ticks_are_allowed() {
    let (sheet, _, _) = load("cable_column");
    let mut numbers = Numbers(24);
    let mut ticks = 0;
    while ticks < 4_000 {
        let handles = [random_handle(&mut numbers), random_handle(&mut numbers)];
        let before = whole_state(handles);
        if forbidden(&sheet, &before) {
            continue;
        }
        let command = extreme(&mut numbers, 20.0, 280.0).round();
        let after =
            handles.map(|handle| handle_tick(handle, command, CLUTCH_AND_LAW, &mut numbers));
        allowed(&sheet, before, whole_state(after), command as i32);
        ticks += 1;
    }
}

/// What the drive commands where it reads these aims.
fn plain_command(aims: [f64; 2]) -> f64 {
    let middle = (aims[0] + aims[1]) / 2.0;
    (150.0 + 800.0 * (middle - REST)).clamp(20.0, 280.0)
}

/// The aims as the drive reads them.
fn read_aims(handles: [Handle; 2], numbers: &mut Numbers) -> [f64; 2] {
    handles.map(|handle| variables(handle)[2] + extreme(numbers, -READING, READING))
}

/// The drive's command is one of the sheet's at the true state, but for what the spread has for it.
#[test]
fn the_law_is_the_drives() {
    let (sheet, _, _) = load("cable_column");
    let mut numbers = Numbers(25);
    let (mut least, mut greatest, mut between) = (0, 0, 0);
    for _ in 0..4_000 {
        let handles = [random_handle(&mut numbers), random_handle(&mut numbers)];
        let commands = plain_commands(&sheet, &whole_state(handles)).expect("a band");
        let command = plain_command(read_aims(handles, &mut numbers));
        let (from, to) = (f64::from(commands.least), f64::from(commands.greatest));
        assert!(
            from - LAW <= command && command <= to + LAW,
            "{command} {commands:?}"
        );
        match (commands.least, commands.greatest) {
            (20, 20) => least += 1,
            (280, 280) => greatest += 1,
            _ => between += 1,
        }
    }
    assert!(least > 100 && greatest > 100 && between > 100);
}

/// Two handles in the measured box, with any command of the span at each tick of the period, and then the plain law.
fn period(sheet: &Sheet, question: &AskedQuestion, numbers: &mut Numbers) {
    let AskedQuestion { measured, .. } = question;
    let mut metres =
        |i: usize| numbers.real(measured.lower[i] as f64, measured.upper[i] as f64) / 10_000.0;
    let left = handle([metres(0), metres(1), metres(2)]);
    let mut handles = [left, handle([metres(3), metres(4), metres(5)])];
    let span = question.commands.span();
    for tick in 0..sheet.delta + sheet.alpha {
        let whole = whole_state(handles);
        assert!(!forbidden(sheet, &whole), "{whole:?} under {question:?}");
        let command = match tick < sheet.delta {
            true => extreme(numbers, f64::from(span.least), f64::from(span.greatest)).round(),
            false => plain_command(read_aims(handles, numbers)),
        };
        handles = handles.map(|handle| handle_tick(handle, command, CLUTCH, numbers));
    }
    assert!(sheet.recovery.holds(&whole_state(handles)));
}

#[test]
fn keeps_hold_with_any_pull_at_each_tick() {
    let (sheet, _, _) = load("cable_column");
    let mut numbers = Numbers(26);
    let kept = kept("cable_column");
    let several = |q: &&AskedQuestion| q.commands.span().least < q.commands.span().greatest;
    assert_eq!((kept.len(), kept.iter().filter(several).count()), (9, 2));
    for question in kept {
        for _ in 0..10 {
            period(&sheet, &question, &mut numbers);
        }
    }
}

/// Heights are read to 0.5 mm, speeds to 10 mm/s and pulls, which are all 150 N, to 3 N. Both handles are at the same
/// height with the same speed, where nothing else is said.
#[test]
fn questions_are_what_was_measured() {
    let (foot, up) = ((240.0, -600.0), ((1_500.0, 0.0), (900.0, 0.0)));
    let states = [
        ((900.0, 0.0), (900.0, 0.0)),
        ((1_300.0, 600.0), (1_300.0, 600.0)),
        ((1_450.0, 850.0), (1_450.0, 850.0)),
        ((1_450.0, 900.0), (1_450.0, 900.0)),
        (foot, foot),
        (foot, foot),
        (foot, foot),
        up,
        up,
        ((1_200.0, 0.0), (600.0, 0.0)),
        ((1_200.0, 600.0), (600.0, -600.0)),
        up,
        up,
        ((900.0, 0.0), (900.0, 0.0)),
        (foot, foot),
        (foot, foot),
    ];
    let boxes = measured("cable_column");
    assert_eq!(boxes.len(), states.len());
    for (sides, (left, right)) in boxes.iter().zip(states) {
        for (first, (height, speed)) in [(0, left), (3, right)] {
            let heading = height + speed / QUICK;
            let off = [0.5, 0.5 + 10.0 / QUICK, 0.5 + 10.0 / QUICK + 3_000.0 / AIM];
            for (i, centre) in [height, heading, heading].into_iter().enumerate() {
                let side = |millimetres: f64| millimetres * 10.0;
                let (lower, upper) = (side(centre - off[i]), side(centre + off[i]));
                assert_eq!(sides.lower[first + i], lower.floor() as i64);
                assert_eq!(sides.upper[first + i], upper.ceil() as i64);
            }
        }
    }
}
