//! Are the examples' sheets true of their machines? Each machine is simulated in small steps of real
//! numbers, with disturbances that change at random, and every tick has to be one that the sheet
//! allows. The questions' boxes are worked out again from what they say was measured.

mod common;

use common::machines::{allowed, disturbances, extreme, forbidden, kept, measured, state_of, step};
use common::machines::{PARTS, STEPS};
use common::{example_text, load, Numbers};
use second_guard::boxes::State;
use second_guard::machine::band_of;
use second_guard::sheet::Sheet;
use sheet_tool::questions::AskedQuestion;

// The leg press.

const MASS: f64 = 300.0;
const DAMPING: f64 = 2_000.0;
const TAU: f64 = MASS / DAMPING;

/// Position and speed, in m and m/s, as the sheet's whole numbers.
fn leg_press_state([position, speed]: [f64; 2]) -> State {
    let whole = |metres: f64| (metres * 10_000.0).round() as i64;
    state_of(&[whole(position), whole(position + TAU * speed)])
}

fn leg_press_tick(mut state: [f64; 2], force: f64, numbers: &mut Numbers) -> [f64; 2] {
    let seconds = 0.005 / (PARTS * STEPS) as f64;
    for legs in disturbances(numbers, 0.0, 800.0) {
        for _ in 0..STEPS {
            state = step(state, seconds, |[_, speed]| {
                [speed, (force + legs - DAMPING * speed) / MASS]
            });
        }
    }
    state
}

#[test]
fn leg_press_ticks_are_allowed() {
    let (sheet, _, _) = load("leg_press");
    let mut numbers = Numbers(2);
    for _ in 0..4_000 {
        let state = [numbers.real(0.02, 0.58), extreme(&mut numbers, -0.6, 0.6)];
        let force = extreme(&mut numbers, -1_200.0, 400.0).round();
        let after = leg_press_tick(state, force, &mut numbers);
        let (before, after) = (leg_press_state(state), leg_press_state(after));
        allowed(&sheet, before, after, force as i32);
    }
}

/// What the plain law wants where the drive reads this coasting position.
fn leg_press_law(coasting: i64) -> (i64, i64) {
    match coasting {
        ..2_400 => (350, 400),
        2_400..3_600 => (-425, -375),
        3_600.. => (-1_200, -1_150),
    }
}

#[test]
fn leg_press_law_is_in_the_safety_ranges() {
    let (sheet, _, _) = load("leg_press");
    for coasting in 0..6_000 {
        let band = band_of(&sheet, coasting).expect("a band");
        let safety = sheet.bands()[band].safety;
        for read in coasting - 25..=coasting + 25 {
            let (least, greatest) = leg_press_law(read);
            assert!(i64::from(safety.least) <= least && greatest <= i64::from(safety.greatest));
        }
    }
}

/// A machine in the measured box, with any force of the span at each tick of the period, and then the plain law.
fn leg_press_period(sheet: &Sheet, question: &AskedQuestion, numbers: &mut Numbers) {
    let AskedQuestion { measured, .. } = question;
    let mut metres =
        |i: usize| numbers.real(measured.lower[i] as f64, measured.upper[i] as f64) / 10_000.0;
    let (position, coasting) = (metres(0), metres(1));
    let mut state = [position, (coasting - position) / TAU];
    for tick in 0..sheet.delta + sheet.alpha {
        let whole = leg_press_state(state);
        assert!(!forbidden(sheet, &whole), "{whole:?} under {question:?}");
        let band = band_of(sheet, whole[1]).expect("a band");
        let commands = match tick < sheet.delta {
            true => question.commands.span(),
            false => sheet.bands()[band].safety,
        };
        let (least, greatest) = (f64::from(commands.least), f64::from(commands.greatest));
        let force = extreme(numbers, least, greatest).round();
        state = leg_press_tick(state, force, numbers);
    }
    assert!(sheet.recovery.holds(&leg_press_state(state)));
}

#[test]
fn leg_press_keeps_hold_with_any_force_at_each_tick() {
    let (sheet, _, _) = load("leg_press");
    let mut numbers = Numbers(12);
    let kept = kept("leg_press");
    let several = |q: &&AskedQuestion| q.commands.span().least < q.commands.span().greatest;
    assert_eq!((kept.len(), kept.iter().filter(several).count()), (9, 2));
    for question in kept {
        for _ in 0..20 {
            leg_press_period(&sheet, &question, &mut numbers);
        }
    }
}

#[test]
fn leg_press_questions_are_what_was_measured() {
    // Position in mm, speed in mm/s, one for each question.
    let states = [
        (300.0, 0.0),
        (300.0, 0.0),
        (460.0, 400.0),
        (460.0, 400.0),
        (220.0, -500.0),
        (160.0, -500.0),
        (160.0, -500.0),
        (160.0, -500.0),
        (160.0, -500.0),
        (160.0, -500.0),
        (300.0, 0.0),
        (460.0, 400.0),
        (460.0, 400.0),
        (300.0, 0.0),
        (460.0, 400.0),
        (160.0, -500.0),
    ];
    let boxes = measured("leg_press");
    assert_eq!(boxes.len(), states.len());
    for (sides, (position, speed)) in boxes.iter().zip(states) {
        let coasting: f64 = position + TAU * speed;
        assert_eq!(sides.lower[0], ((position - 0.2) * 10.0_f64).floor() as i64);
        assert_eq!(sides.upper[0], ((position + 0.2) * 10.0_f64).ceil() as i64);
        assert_eq!(sides.lower[1], ((coasting - 2.45) * 10.0).floor() as i64);
        assert_eq!(sides.upper[1], ((coasting + 2.45) * 10.0).ceil() as i64);
    }
}

// The motor.

/// The speed after a tick, while the ramp goes from its old value to its new one at some moment.
fn motor_tick(mut speed: f64, ramps: (i64, i64), numbers: &mut Numbers) -> f64 {
    let seconds = 0.010 / (PARTS * STEPS) as f64;
    let moment = numbers.whole(0, PARTS as i64) as usize;
    for (part, load) in disturbances(numbers, -1.0, 1.0).into_iter().enumerate() {
        let ramp = if part < moment { ramps.0 } else { ramps.1 } as f64;
        for _ in 0..STEPS {
            let weakened = speed >= 3_000.0;
            let (tau, droop) = if weakened { (0.2, 80.0) } else { (0.1, 40.0) };
            let change = |[speed]: [f64; 1]| [(ramp + droop * load - speed) / tau];
            [speed] = step([speed], seconds, change);
        }
    }
    speed
}

#[test]
fn motor_ticks_are_allowed() {
    let (sheet, _, _) = load("motor");
    let mut numbers = Numbers(3);
    for _ in 0..20 {
        let mut ramp = numbers.whole(800, 3_500);
        let mut speed = ramp as f64;
        for _ in 0..20 {
            let setpoint = extreme(&mut numbers, 0.0, 4_000.0).round() as i64;
            for _ in 0..numbers.whole(1, 200) {
                let next_ramp = ramp + (setpoint - ramp).clamp(-10, 10);
                let next_speed = motor_tick(speed, (ramp, next_ramp), &mut numbers);
                let before = state_of(&[speed.round() as i64, ramp]);
                let after = state_of(&[next_speed.round() as i64, next_ramp]);
                allowed(&sheet, before, after, setpoint as i32);
                (speed, ramp) = (next_speed, next_ramp);
            }
        }
    }
}

// The pendulum.

type Matrix = [[f64; 4]; 4];

const A: Matrix = [
    [0.0, 1.0, 0.0, 0.0],
    [0.0, -10.95, -2.75, 0.0043],
    [0.0, 0.0, 0.0, 1.0],
    [0.0, 24.92, 28.58, -0.044],
];
const B: [f64; 4] = [0.0, 1.94, 0.0, -4.44];
const GAINS: [f64; 4] = [0.3122, 7.1640, 23.1734, 4.6518];
const POLES: [f64; 4] = [-0.25, -1.0, -4.5, -12.0];

/// A with the inner loop closed.
fn closed_loop() -> Matrix {
    std::array::from_fn(|i| std::array::from_fn(|j| A[i][j] + B[i] * GAINS[j]))
}

/// Tilt per metre in the mode of a pole: from the second row, with v = pole · p.
fn tilt_per_metre(c: &Matrix, pole: f64) -> f64 {
    (pole * pole - c[1][1] * pole - c[1][0]) / (c[1][2] + c[1][3] * pole)
}

/// The fourth row for such a mode: 0 at a pole.
fn fourth_row(c: &Matrix, pole: f64) -> f64 {
    let tilt = tilt_per_metre(c, pole);
    c[3][0] + c[3][1] * pole + (c[3][2] + c[3][3] * pole - pole * pole) * tilt
}

/// The pole next to a guess, by halving.
fn pole(c: &Matrix, guess: f64) -> f64 {
    let (mut low, mut high) = (guess * 1.01, guess * 0.99);
    let rising = fourth_row(c, low) < fourth_row(c, high);
    for _ in 0..100 {
        let middle = (low + high) / 2.0;
        if (fourth_row(c, middle) < 0.0) == rising {
            low = middle;
        } else {
            high = middle;
        }
    }
    (low + high) / 2.0
}

/// The modes as columns: the first two with p = 1, the others with theta = 1.
fn modes() -> Matrix {
    let c = closed_loop();
    let mut columns = [[0.0; 4]; 4];
    for (i, guess) in POLES.into_iter().enumerate() {
        let pole = pole(&c, guess);
        let tilt = tilt_per_metre(&c, pole);
        let scale = if i < 2 { 1.0 } else { 1.0 / tilt };
        columns[i] = [1.0, pole, tilt, pole * tilt].map(|value| value * scale);
    }
    std::array::from_fn(|i| std::array::from_fn(|j| columns[j][i]))
}

fn times(matrix: &Matrix, vector: [f64; 4]) -> [f64; 4] {
    matrix.map(|row| row.iter().zip(vector).map(|(a, x)| a * x).sum())
}

/// The inverse, by elimination.
fn inverse(matrix: &Matrix) -> Matrix {
    let mut left = *matrix;
    let mut right: Matrix =
        std::array::from_fn(|i| std::array::from_fn(|j| if i == j { 1.0 } else { 0.0 }));
    for k in 0..4 {
        let largest = (k..4).max_by(|&i, &j| left[i][k].abs().total_cmp(&left[j][k].abs()));
        let largest = largest.expect("a row");
        left.swap(k, largest);
        right.swap(k, largest);
        let divisor = left[k][k];
        left[k] = left[k].map(|value| value / divisor);
        right[k] = right[k].map(|value| value / divisor);
        for i in (0..4).filter(|&i| i != k) {
            let factor = left[i][k];
            left[i] = std::array::from_fn(|j| left[i][j] - factor * left[k][j]);
            right[i] = std::array::from_fn(|j| right[i][j] - factor * right[k][j]);
        }
    }
    right
}

/// The loop with a command and a disturbance, in volts.
fn pendulum_change(state: [f64; 4], volts: f64) -> [f64; 4] {
    let held: f64 = GAINS.iter().zip(state).map(|(gain, x)| gain * x).sum();
    let free = times(&A, state);
    std::array::from_fn(|i| free[i] + B[i] * (held + volts))
}

fn whole_modes(modes: [f64; 4]) -> State {
    state_of(&modes.map(|mode| (mode * 100_000.0).round() as i64))
}

#[test]
fn pendulum_ticks_are_allowed() {
    let (sheet, _, _) = load("pendulum");
    let (columns, rows) = (modes(), inverse(&modes()));
    let mut numbers = Numbers(4);
    let limits = [0.48, 0.38, 0.15, 0.065];
    for _ in 0..4_000 {
        let start = limits.map(|limit| 0.9999 * extreme(&mut numbers, -limit, limit));
        let command = extreme(&mut numbers, -500.0, 500.0).round();
        let mut state = times(&columns, start);
        for disturbance in disturbances(&mut numbers, -20.0, 20.0) {
            let volts = (command + disturbance) / 1_000.0;
            state = step(state, 0.001 / PARTS as f64, |s| pendulum_change(s, volts));
        }
        let before = whole_modes(start);
        assert!(!forbidden(&sheet, &before));
        allowed(
            &sheet,
            before,
            whole_modes(times(&rows, state)),
            command as i32,
        );
    }
}

/// Where nothing is forbidden, the limits of source 000 hold.
#[test]
fn pendulum_limits_hold() {
    let columns = modes();
    let limits = [0.48, 0.38, 0.15, 0.065];
    let greatest =
        |row: [f64; 4]| -> f64 { row.iter().zip(limits).map(|(v, h)| v.abs() * h).sum() };
    assert!(greatest(columns[0]) < 0.892);
    assert!(greatest(columns[1]) < 0.83);
    assert!(greatest(columns[2]) < 14.7_f64.to_radians());
    let volts = |mode: usize| -> f64 { (0..4).map(|i| GAINS[i] * columns[i][mode]).sum() };
    assert!(greatest(std::array::from_fn(volts)) + 0.5 + 0.02 < 3.3);
}

/// The two tables in the sheet's comments are the modes and their inverse.
#[test]
fn pendulum_tables_are_the_modes() {
    let text = example_text("pendulum.txt");
    let names = ["p     ", "v     ", "theta ", "omega "];
    let modes_names = ["cart_slow", "cart_quick", "tilt_slow", "tilt_quick"];
    for (table, names, terms) in [
        (modes(), names, modes_names),
        (
            inverse(&modes()),
            ["cart_slow ", "cart_quick", "tilt_slow ", "tilt_quick"],
            ["p", "v", "theta", "omega"],
        ),
    ] {
        for (row, name) in table.iter().zip(names) {
            let start = format!("#   {name} =");
            let line = text.lines().find(|line| line.starts_with(&start));
            let line = line.unwrap_or_else(|| panic!("a line for {name}"));
            assert_eq!(
                coefficients(&line[start.len()..], terms),
                row.map(rounded),
                "{name}"
            );
        }
    }
}

fn rounded(value: f64) -> i64 {
    (value * 10_000.0).round() as i64
}

/// The numbers before the names in `1.0000 p - 0.3700 v ...`, in units of 0.0001.
fn coefficients(line: &str, names: [&str; 4]) -> [i64; 4] {
    let words: Vec<&str> = line.split_whitespace().collect();
    names.map(|name| {
        let at = words
            .iter()
            .position(|word| *word == name)
            .expect("the name");
        let value: f64 = words[at - 1].parse().expect("a number");
        let negative = at > 1 && words[at - 2] == "-";
        rounded(if negative { -value } else { value })
    })
}

#[test]
fn pendulum_questions_are_what_was_measured() {
    // p in m, v in m/s, tilt in degrees, one for each question; omega is 0 in all.
    let states = [
        (0.0, 0.0, 0.0),
        (0.0, 0.0, 0.0),
        (0.2, 0.0, 0.0),
        (0.27, 0.0, 0.0),
        (0.275, 0.0, 0.0),
        (0.275, 0.0, 0.0),
        (0.285, 0.0, 0.0),
        (0.285, 0.0, 0.0),
        (0.0, 0.0, 3.0),
        (0.0, 0.0, 4.0),
        (0.0, -0.2, 2.0),
        (0.0, -0.2, -2.0),
        (0.0, 0.0, 0.0),
        (0.0, 0.0, 0.0),
        (0.0, 0.0, 0.0),
        (0.27, 0.0, 0.0),
        (0.285, 0.0, 0.0),
    ];
    let tolerance = [0.0001, 0.002, 0.0001, 0.005];
    let rows = inverse(&modes());
    let boxes = measured("pendulum");
    assert_eq!(boxes.len(), states.len());
    for (sides, (p, v, degrees)) in boxes.iter().zip(states) {
        let centre = times(&rows, [p, v, f64::to_radians(degrees), 0.0]);
        for i in 0..4 {
            let reach: f64 = rows[i]
                .iter()
                .zip(tolerance)
                .map(|(l, t)| l.abs() * t)
                .sum();
            assert_eq!(
                sides.lower[i],
                ((centre[i] - reach) * 100_000.0).floor() as i64
            );
            assert_eq!(
                sides.upper[i],
                ((centre[i] + reach) * 100_000.0).ceil() as i64
            );
        }
    }
}
