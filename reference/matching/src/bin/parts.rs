//! What paper 3 of document 02 changed: the archive's answers beside those of the rule before it,
//! by which each band's row was bounded over the whole neighborhood. A question is won where it is
//! kept now and was handed over before, and lost where it is the other way round; a recovery check
//! likewise. It fails where random sheets or the worked examples show no such case, or where a
//! sheet of one band has another answer. The last line is `N passed, M failed`.

use matching::archive::{self, Answer};
use matching::expected::{decide_before, recovery_before};
use matching::generate::{bytes_of, everyday, question_bytes, question_near, sheet_bytes};
use matching::machines::{any_question, machine};
use matching::random::Random;
use second_guard::listing::questions;
use second_guard::sheet;

/// How many everyday sheets, questions near each one's, and questions to each machine of examples/.
const SHEETS: usize = 30_000;
const NEAR: usize = 7;
const ASKED: usize = 10_000;

const WORKED: &str = include_str!("../../../examples.txt");

/// The answers to one group of questions, or of recovery checks.
#[derive(Clone, Default)]
struct Group {
    name: String,
    /// On sheets of several bands: all, those kept or passed now, and those with another answer.
    several_bands: u64,
    kept: u64,
    won: u64,
    lost: u64,
    other_count: u64,
    /// On sheets of one band, and those with another answer.
    one_band: u64,
    differing: u64,
}

impl Group {
    fn new(name: impl Into<String>) -> Group {
        Group {
            name: name.into(),
            ..Group::default()
        }
    }

    /// One answer: code 0 is keep or pass.
    fn note(&mut self, bytes: &[u8], before: Answer, now: Answer) {
        if now.refusal().is_some() {
            return;
        }
        if sheet::read(bytes).is_ok_and(|sheet| sheet.band_count == 1) {
            self.one_band += 1;
            self.differing += u64::from(before != now);
            return;
        }
        let (kept_before, kept_now) = (before.code() == 0, now.code() == 0);
        self.several_bands += 1;
        self.kept += u64::from(kept_now);
        match (kept_before, kept_now) {
            (false, true) => self.won += 1,
            (true, false) => self.lost += 1,
            _ => self.other_count += u64::from(before != now),
        }
    }

    fn question(&mut self, bytes: &[u8], question: &[u8]) {
        let now = archive::decide(bytes, question);
        self.note(bytes, decide_before(bytes, question), now);
    }

    fn check(&mut self, bytes: &[u8]) {
        let now = archive::recovery(bytes);
        self.note(bytes, recovery_before(bytes), now);
    }

    fn print(&self) {
        println!(
            "| {} | {} | {} | {} | {} | {} | {} | {} |",
            self.name,
            self.several_bands,
            self.kept,
            self.won,
            self.lost,
            self.other_count,
            self.one_band,
            self.differing
        );
    }
}

/// The sheets and questions of random matching. The boxes of a sheet are placed by today's reaches
/// of one question, so that this question is kept or handed over by little: of these more are won.
fn everyday_sheets() -> Vec<Group> {
    let mut placed = Group::new("random sheets, the question that the boxes are placed for");
    let mut near = Group::new("random sheets, questions near it");
    let mut checks = Group::new("random sheets, recovery checks");
    let random = &mut Random::new(3);
    for _ in 0..SHEETS {
        let case = everyday(random).case;
        let (bytes, n) = (sheet_bytes(&case.sheet), case.sheet.n());
        let question = question_bytes(1_000_000, case.command, &case.measured, n);
        placed.question(&bytes, &question);
        for _ in 0..NEAR {
            let question = question_near(random, &case);
            near.question(&bytes, &bytes_of(&question, n));
        }
        checks.check(&bytes);
    }
    vec![placed, near, checks]
}

/// A machine of examples/ with its own questions and with random ones.
fn machine_groups(name: &str) -> Vec<Group> {
    let (sheet, bytes, asks) = machine(name);
    let n = sheet.n();
    let mut own = Group::new(format!("{name}, its questions"));
    for question in questions(&asks, n) {
        own.question(&bytes, question);
    }
    let mut asked = Group::new(format!("{name}, random questions"));
    let random = &mut Random::new(4);
    for _ in 0..ASKED {
        let question = any_question(random, &sheet);
        asked.question(&bytes, &bytes_of(&question, n));
    }
    let mut check = Group::new(format!("{name}, recovery check"));
    check.check(&bytes);
    vec![own, asked, check]
}

fn from_hex(text: &str) -> Vec<u8> {
    let byte = |at: usize| u8::from_str_radix(&text[at..at + 2], 16).expect("hex");
    (0..text.len()).step_by(2).map(byte).collect()
}

/// A field of a line of `examples.txt`, as bytes.
fn field(line: &str, name: &str) -> Option<Vec<u8>> {
    let words = &mut line.split(' ');
    words.find_map(|word| word.strip_prefix(name)).map(from_hex)
}

/// The worked examples.
fn worked() -> Vec<Group> {
    let mut questions = Group::new("worked examples, questions");
    let mut checks = Group::new("worked examples, recovery checks");
    for line in WORKED.lines().filter(|line| !line.starts_with('#')) {
        let call = line.split(' ').nth(1);
        let bytes = field(line, "sheet=").unwrap_or_default();
        match (call, field(line, "question=")) {
            (Some("decide"), Some(question)) => questions.question(&bytes, &question),
            (Some("check"), _) => checks.check(&bytes),
            _ => {}
        }
    }
    vec![questions, checks]
}

fn main() {
    // Random sheets and worked examples show each kind of change.
    let showing = [everyday_sheets(), worked()].concat();
    let machines = ["leg_press", "motor", "pendulum", "cable_column"]
        .map(machine_groups)
        .concat();
    println!(
        "| group | several bands | kept | won | lost | other width or rounds | one band | other |"
    );
    println!("|---|---:|---:|---:|---:|---:|---:|---:|");
    showing.iter().chain(&machines).for_each(Group::print);
    let shown = showing.iter().map(|group| group.won > 0 && group.lost > 0);
    let same = showing
        .iter()
        .chain(&machines)
        .map(|group| group.differing == 0);
    let passed: Vec<bool> = shown.chain(same).collect();
    let failed = passed.iter().filter(|&&passed| !passed).count();
    println!("{} passed, {failed} failed", passed.len() - failed);
    std::process::exit(i32::from(failed > 0));
}
