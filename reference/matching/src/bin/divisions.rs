//! What paper 6 of document 02 saves: in each round a face looks at one change for every band that it
//! meets, and the change is divided only strictly between −q·cap and q·cap. This program counts the
//! changes that are clamped outward and inward, those between that are no further out than a band
//! before, and those that are divided. It fails where the archive's answer is not the second guard's
//! and the plain guard's, which divides every change, where random sheets show none of one kind, or
//! where a numerator to be divided is too large. The last line is `N passed, M failed`.

use matching::archive::{self, Answer};
use matching::generate::{
    bytes_of, everyday, question_bytes, question_near, sheet_bytes, worst_case,
};
use matching::machines::{any_question, machine};
use matching::random::Random;
use second_guard::boxes::{StateBox, VARIABLES};
use second_guard::changes::Change;
use second_guard::decision::{check_recovery_watched, decide_watched, read_question, Faults};
use second_guard::listing::questions;
use second_guard::neighborhoods::Face;
use second_guard::reach::Watch;
use second_guard::sheet::{self, Sheet};

/// How many everyday sheets, questions near each one's, and questions to each machine of examples/.
const SHEETS: usize = 30_000;
const NEAR: usize = 3;
const ASKED: usize = 10_000;

/// No numerator that is divided is greater.
const GREATEST: i64 = 4_095_999;

/// The kinds of changes.
const KINDS: usize = 4;
const OUTWARD: usize = 0;
const INWARD: usize = 1;
const NO_FURTHER: usize = 2;
const DIVIDED: usize = 3;

/// What some rounds looked at.
#[derive(Clone, Default)]
struct Sight {
    rounds: u64,
    kinds: [u64; KINDS],
    too_large: u64,
    /// The changes of the last round so far.
    round: Vec<Change>,
}

/// A lower face's numerator stays, an upper face's changes its sign: then less is further out.
fn turned(change: &Change) -> i64 {
    match change.face {
        Face::Lower => change.numerator,
        Face::Upper => -change.numerator,
    }
}

impl Sight {
    /// Counts a change beside the outermost so far of its face.
    fn count(&mut self, change: &Change, outermost: &mut Option<i64>) {
        let (cap, q) = (i64::from(change.cap), i64::from(change.q));
        let (numerator, limit) = (turned(change), change.limit());
        let so_far = outermost.unwrap_or(cap);
        let (kind, clamped) = if numerator <= -limit {
            (OUTWARD, -cap)
        } else if numerator >= limit {
            (INWARD, cap)
        } else if numerator >= so_far * q {
            (NO_FURTHER, so_far)
        } else {
            (DIVIDED, numerator.div_euclid(q))
        };
        self.kinds[kind] += 1;
        let between = kind == NO_FURTHER || kind == DIVIDED;
        self.too_large += u64::from(between && numerator.abs() > GREATEST);
        *outermost = Some(so_far.min(clamped));
    }

    /// Counts the round that has ended. The second guard goes from the last band down; here each
    /// face's changes come from the first band up, as the guard goes.
    fn finish_round(&mut self) {
        let mut outermost = [[None; 2]; VARIABLES];
        let round = std::mem::take(&mut self.round);
        for change in round.iter().rev() {
            let face = usize::from(change.face == Face::Upper);
            self.count(change, &mut outermost[change.variable][face]);
        }
        self.round = round;
        self.round.clear();
    }
}

impl Watch for Sight {
    fn round(&mut self, _sheet: &Sheet, _start: &StateBox, _enclosure: &StateBox, _ticks: u32) {
        self.finish_round();
        self.rounds += 1;
    }

    fn change(&mut self, change: Change) {
        self.round.push(change);
    }
}

/// Some questions or recovery checks, and what their rounds looked at.
struct Group {
    name: String,
    /// Random sheets have to show each kind of change.
    random: bool,
    asked: u64,
    differing: u64,
    /// The rounds of the archive's answers.
    rounds: u64,
    sight: Sight,
}

impl Group {
    fn new(name: impl Into<String>, random: bool) -> Group {
        Group {
            name: name.into(),
            random,
            asked: 0,
            differing: 0,
            rounds: 0,
            sight: Sight::default(),
        }
    }

    fn note(&mut self, guard: Answer, second: u64, plain: u64) {
        self.asked += 1;
        self.rounds += u64::from(guard.rounds());
        self.differing += u64::from(guard != Answer(second) || guard != Answer(plain));
        self.sight.finish_round();
    }

    /// A question that is not refused.
    fn question(&mut self, bytes: &[u8], question: &[u8]) {
        let sheet = sheet::read(bytes).expect("an accepted sheet");
        let Ok(asked) = read_question(&sheet, question) else {
            return;
        };
        let second = decide_watched(&sheet, &asked, Faults::default(), &mut self.sight);
        let plain = plain_guard::decide(bytes, question);
        self.note(archive::decide(bytes, question), second.pack(), plain);
    }

    fn check(&mut self, bytes: &[u8]) {
        let sheet = sheet::read(bytes).expect("an accepted sheet");
        let second = check_recovery_watched(&sheet, &mut self.sight);
        let plain = plain_guard::recovery(bytes);
        self.note(archive::recovery(bytes), second.pack(), plain);
    }

    fn print(&self) {
        let changes: u64 = self.sight.kinds.iter().sum();
        let shares = self.sight.kinds.map(|count| {
            let share = 100.0 * count as f64 / changes as f64;
            format!("{share:.1} %")
        });
        let in_a_round = |count: u64| count as f64 / self.sight.rounds as f64;
        println!(
            "| {} | {} | {} | {changes} | {} | {:.2} | {:.2} |",
            self.name,
            self.asked,
            self.sight.rounds,
            shares.join(" | "),
            in_a_round(changes),
            in_a_round(self.sight.kinds[DIVIDED])
        );
    }

    /// Answers alike, as many rounds watched as answered, no numerator too large, each kind shown.
    fn passed(&self) -> Vec<bool> {
        let mut passed = vec![
            self.asked > 0 && self.differing == 0,
            self.sight.rounds == self.rounds,
            self.sight.too_large == 0,
        ];
        if self.random {
            passed.extend(self.sight.kinds.map(|count| count > 0));
        }
        passed
    }
}

/// The sheets and questions of random matching.
fn random_sheets() -> Vec<Group> {
    let mut placed = Group::new(
        "random sheets, the question that the boxes are placed for",
        true,
    );
    let mut near = Group::new("random sheets, questions near it", true);
    let mut checks = Group::new("random sheets, recovery checks", true);
    let random = &mut Random::new(61);
    for _ in 0..SHEETS {
        let case = everyday(random).case;
        let (bytes, n) = (sheet_bytes(&case.sheet), case.sheet.n());
        let question = question_bytes(1_000_000, case.command, &case.measured, n);
        placed.question(&bytes, &question);
        for _ in 0..NEAR {
            let question = question_near(random, &case);
            near.question(&bytes, &bytes_of(&question, n));
        }
        checks.check(&bytes);
    }
    vec![placed, near, checks]
}

/// A machine of examples/ with its own questions and with random ones.
fn machine_groups(name: &str) -> Vec<Group> {
    let (sheet, bytes, asks) = machine(name);
    let (n, name) = (sheet.n(), name.replace('_', " "));
    let mut own = Group::new(format!("{name}, its questions"), false);
    for question in questions(&asks, n) {
        own.question(&bytes, question);
    }
    let mut asked = Group::new(format!("{name}, random questions"), false);
    let random = &mut Random::new(62);
    for _ in 0..ASKED {
        let question = any_question(random, &sheet);
        asked.question(&bytes, &bytes_of(&question, n));
    }
    vec![own, asked]
}

/// The case with the most rounds.
fn worst() -> Vec<Group> {
    let case = worst_case();
    let (bytes, n) = (sheet_bytes(&case.sheet), case.sheet.n());
    let mut group = Group::new("worst case", false);
    let question = question_bytes(1_000_000, case.command, &case.measured, n);
    group.question(&bytes, &question);
    vec![group]
}

fn main() {
    let machines = ["leg_press", "motor", "pendulum", "cable_column"];
    let mut groups: Vec<Group> = machines.into_iter().flat_map(machine_groups).collect();
    groups.extend(random_sheets());
    groups.extend(worst());
    println!("| group | asked | rounds | changes | clamped outward | clamped inward | between, no further out | divided | changes in a round | divided in a round |");
    println!("|---|---:|---:|---:|---:|---:|---:|---:|---:|---:|");
    groups.iter().for_each(Group::print);
    let passed: Vec<bool> = groups.iter().flat_map(Group::passed).collect();
    let failed = passed.iter().filter(|&&passed| !passed).count();
    println!("{} passed, {failed} failed", passed.len() - failed);
    std::process::exit(i32::from(failed > 0));
}
