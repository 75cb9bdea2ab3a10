//! The archive against the second guard in one run: the two take turns, the medians of their
//! processor times are compared, and a table in markdown is printed. A second table has the
//! instructions of a round and of reading a sheet, which callgrind counts over this program itself. A
//! third one has the guard's rounds under a span of commands beside those under one command, and a
//! fourth one its decisions by the drive's readings beside the same questions by bytes.
//! Times are told and not judged, since they vary with the machine. What is judged is that the two
//! answer alike and how many instructions the guard takes: for a round at n up to 4 with several bands no
//! more than before a change was compared with its cap first (at n = 1, than today's toolchain makes of the
//! same code); for a round at n = 6 with eight bands, `BD`
//! and `BF`, also in the worst cases, at most 1.1 times the second guard's; for reading a sheet at most
//! 1.25 times the second guard's; for a decision by readings at most `MOST_BY_READINGS` times that by
//! bytes. The last line is `N passed, M failed`.

use matching::archive::{self, format::PAIR, sheet_archive::SheetArchive};
use matching::expected;
use matching::generate::{
    everyday_of, everywhere, question_bytes, sheet_bytes, span_bytes, worst_case, worst_case_of,
    Case,
};
use matching::machines::machine;
use matching::random::Random;
use second_guard::boxes::{StateBox, VARIABLES};
use second_guard::listing::questions;
use second_guard::readings;
use second_guard::sheet::{self, Band, BandLaw, CommandRange, Kind, Row, Sheet};
use second_guard::sheet::{BANDS, NUMBERS, UNSAFE_BOXES};
use std::hint::black_box;
use std::process::Command;
use std::thread;
use std::time::Duration;

/// How many samples each of the two gives, how many where one takes long, and how long one should last.
const SAMPLES: usize = 41;
const LONG_SAMPLES: usize = 7;
const SAMPLE: Duration = Duration::from_micros(1_500);
/// A call of at least so many nanoseconds takes long.
const LONG: f64 = 5e7;

/// Times of both for one call in nanoseconds, and the median ratio of times taken together.
struct Times {
    guard: f64,
    second: f64,
    ratio: f64,
}

#[repr(C)]
#[derive(Default)]
struct Timespec {
    seconds: i64,
    nanoseconds: i64,
}

extern "C" {
    fn clock_gettime(clock: i32, time: *mut Timespec) -> i32;
}

/// The clock of the time that this thread has run, whatever else the machine does.
const THREAD_TIME: i32 = 3;

fn thread_nanoseconds() -> f64 {
    let mut time = Timespec::default();
    let read = unsafe { clock_gettime(THREAD_TIME, &mut time) };
    assert_eq!(read, 0, "the thread's clock can be read");
    time.seconds as f64 * 1e9 + time.nanoseconds as f64
}

fn repeat(times: u32, mut call: impl FnMut() -> u64) {
    for _ in 0..times {
        black_box(call());
    }
}

fn time(times: u32, call: impl FnMut() -> u64) -> f64 {
    let start = thread_nanoseconds();
    repeat(times, call);
    (thread_nanoseconds() - start) / f64::from(times)
}

fn median(mut times: Vec<f64>) -> f64 {
    times.sort_by(f64::total_cmp);
    times[times.len() / 2]
}

/// Both calls in turn; they have to answer alike, else the program ends here.
fn compare(mut guard: impl FnMut() -> u64, mut second: impl FnMut() -> u64) -> Times {
    assert_eq!(guard(), second(), "the two answer alike");
    take_turns(guard, second)
}

/// The times of two calls in turn.
fn take_turns(mut guard: impl FnMut() -> u64, mut second: impl FnMut() -> u64) -> Times {
    let once = time(2, &mut second).max(1.0);
    let times = (SAMPLE.as_nanos() as f64 / once).clamp(1.0, 1e6) as u32;
    let samples = if once < LONG { SAMPLES } else { LONG_SAMPLES };
    let (mut guards, mut seconds) = (Vec::new(), Vec::new());
    for turn in 0..samples {
        if turn % 2 == 0 {
            guards.push(time(times, &mut guard));
            seconds.push(time(times, &mut second));
        } else {
            seconds.push(time(times, &mut second));
            guards.push(time(times, &mut guard));
        }
    }
    let ratios = guards.iter().zip(&seconds).map(|(g, s)| g / s).collect();
    Times {
        guard: median(guards),
        second: median(seconds),
        ratio: median(ratios),
    }
}

fn show(nanoseconds: f64) -> String {
    match nanoseconds {
        ns if ns < 1e3 => format!("{ns:.0} ns"),
        ns if ns < 1e6 => format!("{:.2} µs", ns / 1e3),
        ns => format!("{:.2} ms", ns / 1e6),
    }
}

fn line(name: &str, times: &Times, per: f64) {
    println!(
        "| {name} | {} | {} | {:.2} |",
        show(times.guard / per),
        show(times.second / per),
        times.ratio
    );
}

fn decide_by_guard(sheet: &[u8], question: &[u8]) -> u64 {
    archive::decide(black_box(sheet), black_box(question)).0
}

fn decide_by_second(sheet: &[u8], question: &[u8]) -> u64 {
    expected::decide(black_box(sheet), black_box(question)).0
}

fn decide(sheet: &[u8], question: &[u8]) -> Times {
    compare(
        || decide_by_guard(sheet, question),
        || decide_by_second(sheet, question),
    )
}

/// Reading with the archive of the crate `sheet_c` alone.
fn read_by_guard(archive: SheetArchive, sheet: &[u8], numbers: &mut [i32; NUMBERS]) -> u64 {
    let refusal = archive.read(black_box(sheet), numbers);
    black_box(numbers);
    refusal.into()
}

/// Reading with the second guard, which too has to leave the values in memory.
fn read_by_second(sheet: &[u8]) -> u64 {
    let values = sheet::read(black_box(sheet));
    black_box(&values);
    values.map_or_else(|refusal| refusal.number().into(), |_| 0)
}

fn read(sheet: &[u8]) -> Times {
    let archive = SheetArchive::new();
    let mut numbers = [0; NUMBERS];
    compare(
        || read_by_guard(archive, sheet, &mut numbers),
        || read_by_second(sheet),
    )
}

fn rounds(sheet: &[u8], question: &[u8]) -> u64 {
    expected::decide(sheet, question).rounds().into()
}

/// A machine whose neighborhoods meet all of its bands, but for those of the band variable that their
/// depth cuts, with a recovery box out of reach. The bands' rows are the same: the parts make no difference.
fn model(n: usize, bands: usize, unsafe_boxes: usize, kind: Kind) -> (Sheet, StateBox) {
    let mut sheet = Sheet {
        variables: n as i32,
        band_count: bands as i32,
        unsafe_count: unsafe_boxes as i32,
        delta: 10,
        alpha: 990,
        rho: 8,
        commands: CommandRange {
            least: -20,
            greatest: 20,
        },
        ..Sheet::default()
    };
    sheet.caps[..n].fill(20);
    let mut row = Row {
        b: 4,
        c: 3,
        d: 5,
        q: 64,
        ..Row::default()
    };
    row.a[..n].copy_from_slice(&[-3, 1, -1, 2, -2, 1][..n]);
    for (k, band) in sheet.bands[..bands].iter_mut().enumerate() {
        *band = model_band(n, row, kind);
        if k > 0 {
            band.edge = 10 * k as i32 - 40;
        }
    }
    for (from, unsafe_box) in (1_999_990..).zip(&mut sheet.unsafe_boxes[..unsafe_boxes]) {
        *unsafe_box = everywhere(n);
        unsafe_box.lower[0] = from;
    }
    let mut measured = StateBox::default();
    measured.lower[..n].fill(-45);
    measured.upper[..n].fill(47);
    (sheet, measured)
}

/// A band of that machine. Its law's commands are never clamped.
fn model_band(n: usize, row: Row, kind: Kind) -> Band {
    let mut band = Band {
        edge: sheet::FIRST_EDGE,
        safety: CommandRange {
            least: -3,
            greatest: 4,
        },
        ..Band::default()
    };
    band.rows[..n].fill(row);
    if kind == Kind::Following {
        band.law = BandLaw {
            coefficients: [-1, 2, -1, 1, -2, 1],
            constant: 130,
            divisor: 256,
        };
    }
    band
}

/// The allowances at which a decision is measured.
const ALLOWANCES: [u32; 7] = [0, 1, 4, 16, 64, 256, 1_024];

/// The numbers of variables and of bands at which a round is measured, and the bands' kind.
#[derive(Clone, Copy, PartialEq, Eq)]
struct Shape(usize, usize, Kind);

const SHAPES: [Shape; 15] = [
    Shape(1, 1, Kind::Fixed),
    Shape(1, 3, Kind::Fixed),
    Shape(1, 8, Kind::Fixed),
    Shape(2, 1, Kind::Fixed),
    Shape(2, 3, Kind::Fixed),
    Shape(2, 8, Kind::Fixed),
    Shape(4, 1, Kind::Fixed),
    Shape(4, 3, Kind::Fixed),
    Shape(4, 8, Kind::Fixed),
    Shape(6, 1, Kind::Fixed),
    Shape(6, 3, Kind::Fixed),
    Shape(6, 8, Kind::Fixed),
    Shape(6, 1, Kind::Following),
    Shape(6, 3, Kind::Following),
    Shape(6, 8, Kind::Following),
];

/// Those at which a round under a span is measured.
const SPAN_SHAPES: [(usize, usize); 4] = [(1, 1), (2, 3), (4, 8), (6, 8)];

impl Shape {
    fn text(self) -> String {
        let Shape(n, bands, kind) = self;
        match kind {
            Kind::Fixed if n <= 4 => format!("n {n}, bands {bands}"),
            _ => format!("n {n}, bands {bands}, {}", mark(kind)),
        }
    }
}

/// The mark of a kind's bands, as it is written.
fn mark(kind: Kind) -> String {
    format!("`{}`", String::from_utf8_lossy(kind.mark()))
}

/// A sheet that is read, and its name.
type Size = (&'static str, fn() -> Sheet);

const SIZES: [Size; 7] = [
    ("small", || model(1, 1, 1, Kind::Fixed).0),
    ("middle", || model(2, 4, 4, Kind::Fixed).0),
    ("largest of four variables", || largest_of(4, Kind::Fixed)),
    ("largest", largest),
    ("largest by last sides", largest_by_last_sides),
    ("largest by last variable", largest_by_last_variable),
    ("largest with laws", || {
        largest_of(VARIABLES, Kind::Following)
    }),
];

/// The largest sheet of so many variables and of a kind.
fn largest_of(n: usize, kind: Kind) -> Sheet {
    model(n, BANDS, UNSAFE_BOXES, kind).0
}

fn largest() -> Sheet {
    largest_of(VARIABLES, Kind::Fixed)
}

/// The same with no-go boxes that differ in their last side alone, so that all sides are compared.
fn largest_by_last_sides() -> Sheet {
    let mut sheet = largest();
    let first = sheet.unsafe_boxes[0];
    for (last, unsafe_box) in (1_999_990..).zip(&mut sheet.unsafe_boxes) {
        *unsafe_box = first;
        unsafe_box.upper[VARIABLES - 1] = last;
    }
    sheet
}

/// The same, and they are clear of the recovery box in their last variable alone, so that each is
/// compared with it in all variables.
fn largest_by_last_variable() -> Sheet {
    let mut sheet = largest();
    let beside = sheet.recovery.upper[VARIABLES - 1] + 1;
    for (last, unsafe_box) in (1_999_990..).zip(&mut sheet.unsafe_boxes) {
        *unsafe_box = everywhere(VARIABLES);
        unsafe_box.lower[VARIABLES - 1] = beside;
        unsafe_box.upper[VARIABLES - 1] = last;
    }
    sheet
}

fn sheet_of_size(size: usize) -> Vec<u8> {
    sheet_bytes(&SIZES[size].1())
}

/// A sheet and a question that takes over 1,000 rounds.
fn many_rounds(Shape(n, bands, kind): Shape) -> (Vec<u8>, Vec<u8>) {
    let (sheet, measured) = model(n, bands, 1, kind);
    let bytes = sheet_bytes(&sheet);
    let question = question_bytes(1_500, 5, &measured, n);
    assert!(rounds(&bytes, &question) > 1_000, "enough rounds");
    (bytes, question)
}

/// How a round under the coach's commands is asked for.
const ASKED_BY: [&str; 3] = ["`QS`", "`QR` of one command", "`QR` of all commands"];

/// A sheet and a question that takes over 1,000 rounds, nearly all of them under the coach's commands:
/// by its place in `ASKED_BY`.
fn rounds_of_coach(n: usize, bands: usize, asked_by: usize) -> (Vec<u8>, Vec<u8>) {
    let (mut sheet, measured) = model(n, bands, 1, Kind::Fixed);
    (sheet.delta, sheet.alpha) = (990, 10);
    let bytes = sheet_bytes(&sheet);
    let question = match asked_by {
        0 => question_bytes(1_500, 5, &measured, n),
        1 => span_bytes(1_500, CommandRange::one(5), &measured, n),
        _ => span_bytes(1_500, sheet.commands, &measured, n),
    };
    assert!(rounds(&bytes, &question) > 1_000, "enough rounds");
    (bytes, question)
}

/// How the measured box of a decision is told.
const TOLD_BY: [&str; 3] = ["bytes", "points", "pairs"];

/// The rounds of a decision whose box is told by readings, its numbers of variables and of bands.
const TOLD_ROUNDS: [u32; 2] = [0, 16];
const TOLD_SHAPES: [(usize, usize); 3] = [(1, 1), (2, 3), (6, 8)];

/// How many times the instructions of a decision by bytes the same one by readings may take, where it has
/// at least `JUDGED_ROUNDS` rounds. It has 2n floats to round and otherwise does the same; to read the sheet
/// twice, or to decide twice, would go past the limit.
const MOST_BY_READINGS: f64 = 1.05;
const JUDGED_ROUNDS: u32 = 16;

/// A call by readings and by bytes.
struct Told {
    sheet: Vec<u8>,
    question: Vec<u8>,
    head: Vec<u8>,
    kinds: Vec<u8>,
    values: Vec<f32>,
}

impl Told {
    /// The box of `model` by points or by pairs, by a place in `TOLD_BY`: both come to its sides.
    fn new((n, bands): (usize, usize), allowance: u32, told_by: usize) -> Told {
        let (sheet, measured) = model(n, bands, 1, Kind::Fixed);
        let question = question_bytes(allowance, 5, &measured, n);
        let (kind, values) = match TOLD_BY[told_by] {
            "pairs" => (2, [-44.25, 46.5]),
            _ => (1, [1.0, 45.5]),
        };
        Told {
            sheet: sheet_bytes(&sheet),
            head: question[..question.len() - PAIR * n].to_vec(),
            question,
            kinds: vec![kind; n],
            values: values.repeat(n),
        }
    }

    fn by_readings(&self, who: &str) -> u64 {
        let (sheet, head) = (black_box(&self.sheet[..]), black_box(&self.head[..]));
        let (kinds, values) = (black_box(&self.kinds[..]), black_box(&self.values[..]));
        match who {
            "guard" => archive::decide_readings(sheet, head, kinds, values).0,
            _ => readings::decide_slices(sheet, head, kinds, values).pack(),
        }
    }

    fn by_bytes(&self, who: &str) -> u64 {
        match who {
            "guard" => decide_by_guard(&self.sheet, &self.question),
            _ => decide_by_second(&self.sheet, &self.question),
        }
    }

    fn run(&self, who: &str, told_by: usize, times: u32) {
        match TOLD_BY[told_by] {
            "bytes" => repeat(times, || self.by_bytes(who)),
            _ => repeat(times, || self.by_readings(who)),
        }
    }
}

/// Sheets and questions that are asked one after another.
type Asked = Vec<(Vec<u8>, Vec<u8>)>;

/// A group of questions: its name, the questions, and the most instructions of a round, as below.
type Group = (&'static str, fn() -> Asked, Most);

/// Groups in which changes are often clamped.
const GROUPS: [Group; 5] = [
    (
        "leg press",
        || example("leg_press"),
        Most::Instructions(698.0),
    ),
    ("cable column", || example("cable_column"), Most::Any),
    (
        "random sheets",
        || random_sheets(&[1, 1, 2, 2, 2, 3, 4], Kind::Fixed),
        Most::Instructions(905.0),
    ),
    (
        "random sheets, n 5 and 6, `BD`",
        || random_sheets(&[5, 6], Kind::Fixed),
        Most::Any,
    ),
    (
        "random sheets, n 5 and 6, `BF`",
        || random_sheets(&[5, 6], Kind::Following),
        Most::Any,
    ),
];

/// A machine of examples/ with those of its questions about one command that are not refused.
fn example(name: &str) -> Asked {
    let (sheet, bytes, asks) = machine(name);
    let one_command = questions(&asks, sheet.n()).filter(|question| question.starts_with(b"QS"));
    let asked = one_command.map(|question| (bytes.clone(), question.to_vec()));
    asked
        .filter(|(sheet, question)| rounds(sheet, question) > 0)
        .collect()
}

/// How many random sheets, and the least and the most rounds that a question to them takes.
const RANDOM_SHEETS: usize = 100;
const LEAST_ROUNDS: u64 = 50;
const MOST_ROUNDS: u32 = 200;

/// Everyday sheets of random matching, each with the question that its boxes are placed for: their
/// numbers of variables are drawn from these.
fn random_sheets(variables: &[usize], kind: Kind) -> Asked {
    let random = &mut Random::new(6);
    let cases = std::iter::repeat_with(|| {
        let n = random.pick(variables);
        everyday_of(random, n, kind).case
    });
    let asked = cases.map(|case| {
        let question = question_bytes(MOST_ROUNDS, case.command, &case.measured, case.sheet.n());
        (sheet_bytes(&case.sheet), question)
    });
    let long = asked.filter(|(sheet, question)| rounds(sheet, question) >= LEAST_ROUNDS);
    long.take(RANDOM_SHEETS).collect()
}

/// The worst cases: the case, how many rounds of it are counted by instructions, and the most of one.
type Worst = (fn() -> Case, u32, Most);

const WORST_CASES: [Worst; 3] = [
    (worst_case, 2_000, Most::Any),
    (|| worst_case_of(Kind::Fixed), 2_000, Most::Times(1.1)),
    (|| worst_case_of(Kind::Following), 2_000, Most::Times(1.1)),
];

/// A worst case's name, and its sheet and question with an allowance.
fn worst_with(place: usize, allowance: u32) -> (String, Vec<u8>, Vec<u8>) {
    let Case {
        sheet,
        measured,
        command,
    } = WORST_CASES[place].0();
    let bytes = sheet_bytes(&sheet);
    let question = question_bytes(allowance, command, &measured, sheet.n());
    let shape = Shape(sheet.n(), sheet.bands().len(), sheet.kind());
    (shape.text(), bytes, question)
}

/// How one of the two decides.
type Decide = fn(&[u8], &[u8]) -> u64;

/// All questions of a group; the number differs where one of the answers does.
fn ask_all(asked: &Asked, decide: Decide) -> u64 {
    let mut all: u64 = 0;
    for (sheet, question) in asked {
        all = all.wrapping_mul(31).wrapping_add(decide(sheet, question));
    }
    all
}

/// The rounds of all questions of a group.
fn rounds_of_all(asked: &Asked) -> f64 {
    asked
        .iter()
        .map(|(sheet, question)| rounds(sheet, question) as f64)
        .sum()
}

/// How many instructions the guard may take.
#[derive(Clone, Copy)]
enum Most {
    /// So many times those of the second guard.
    Times(f64),
    /// So many.
    Instructions(f64),
    /// Any number: it is told and not judged.
    Any,
}

/// Of a round: at n up to 4 what it took before a change was compared with its cap first, and with one
/// band what it takes since boxes have room for six variables; at n 6 it is judged with eight bands. These
/// were counted with an older toolchain. At n 1 they are what the same bodies take with today's, up to
/// 25 instructions more; the older ones were 258, 385 and 572.
fn most_of_round(Shape(n, bands, _): Shape) -> Most {
    Most::Instructions(match (n, bands) {
        (6, 8) => return Most::Times(1.1),
        (6, _) => return Most::Any,
        (1, 1) => 262.0,
        (1, 3) => 396.0,
        (1, _) => 585.0,
        (2, 1) => 452.0,
        (2, 3) => 726.0,
        (2, _) => 1337.0,
        (_, 1) => 1005.0,
        (_, 3) => 1894.0,
        _ => 4060.0,
    })
}

/// Of reading a sheet.
const MOST_OF_READING: Most = Most::Times(1.25);

/// What callgrind runs: one of the two, so many times.
const COUNTED: &str = "counted";

/// Work that is counted, in the words of this program's arguments.
#[derive(Clone, Copy)]
enum Work {
    /// Decisions at a shape, by its place in `SHAPES`.
    Decide(usize),
    /// The first rounds of a worst case, by its place in `WORST_CASES`.
    Worst(usize),
    /// The same under the coach's commands, by a place in `ASKED_BY`.
    Coach(usize, usize, usize),
    /// A decision by its places in `TOLD_SHAPES`, `TOLD_ROUNDS` and `TOLD_BY`.
    Told(usize, usize, usize),
    /// The questions of a group, by its place in `GROUPS`.
    Ask(usize),
    /// Reading a sheet, by its place in `SIZES`.
    Read(usize),
}

impl Work {
    fn words(self) -> Vec<String> {
        let (name, numbers) = match self {
            Work::Decide(shape) => ("decide", vec![shape]),
            Work::Worst(case) => ("worst", vec![case]),
            Work::Coach(n, bands, asked_by) => ("coach", vec![n, bands, asked_by]),
            Work::Told(shape, rounds, told_by) => ("told", vec![shape, rounds, told_by]),
            Work::Ask(group) => ("ask", vec![group]),
            Work::Read(size) => ("read", vec![size]),
        };
        let numbers = numbers.iter().map(usize::to_string);
        [name.to_string()].into_iter().chain(numbers).collect()
    }

    fn from_words(words: &[String]) -> Work {
        let number = |i: usize| words[i].parse::<usize>().expect("a number");
        match words[0].as_str() {
            "decide" => Work::Decide(number(1)),
            "worst" => Work::Worst(number(1)),
            "coach" => Work::Coach(number(1), number(2), number(3)),
            "told" => Work::Told(number(1), number(2), number(3)),
            "ask" => Work::Ask(number(1)),
            _ => Work::Read(number(1)),
        }
    }

    fn run(self, who: &str, times: u32) {
        let ask = |asked: &Asked| match who {
            "guard" => repeat(times, || ask_all(asked, decide_by_guard)),
            _ => repeat(times, || ask_all(asked, decide_by_second)),
        };
        let decide = |(sheet, question): (Vec<u8>, Vec<u8>)| match who {
            "guard" => repeat(times, || decide_by_guard(&sheet, &question)),
            _ => repeat(times, || decide_by_second(&sheet, &question)),
        };
        match self {
            Work::Decide(shape) => decide(many_rounds(SHAPES[shape])),
            Work::Worst(case) => {
                let (_, sheet, question) = worst_with(case, WORST_CASES[case].1);
                decide((sheet, question));
            }
            Work::Coach(n, bands, asked_by) => decide(rounds_of_coach(n, bands, asked_by)),
            Work::Told(shape, rounds, told_by) => {
                let told = Told::new(TOLD_SHAPES[shape], TOLD_ROUNDS[rounds], told_by);
                told.run(who, told_by, times);
            }
            Work::Ask(group) => ask(&GROUPS[group].1()),
            Work::Read(size) => {
                let sheet = &sheet_of_size(size)[..];
                let archive = SheetArchive::new();
                let mut numbers = [0; NUMBERS];
                match who {
                    "guard" => repeat(times, || read_by_guard(archive, sheet, &mut numbers)),
                    _ => repeat(times, || read_by_second(sheet)),
                }
            }
        }
    }
}

fn run_counted(words: &[String]) {
    let times = words[1].parse().expect("a number");
    Work::from_words(&words[2..]).run(&words[0], times);
}

/// Has the C library clear and copy arrays by words: callgrind counts a string instruction once for each byte.
const BY_WORDS: &str =
    "glibc.cpu.x86_rep_stosb_threshold=1048576:glibc.cpu.x86_rep_movsb_threshold=1048576";

/// The instructions of this program where one of the two does the work so many times.
fn instructions(who: &str, work: Work, times: u32) -> f64 {
    let output = Command::new("valgrind")
        .env("GLIBC_TUNABLES", BY_WORDS)
        .args(["--tool=callgrind", "--callgrind-out-file=/dev/null"])
        .arg(std::env::current_exe().expect("this program"))
        .args([COUNTED, who, &times.to_string()])
        .args(work.words())
        .output()
        .expect("valgrind runs");
    let said = String::from_utf8_lossy(&output.stderr);
    let count = said
        .lines()
        .find_map(|line| line.split("Collected :").nth(1));
    let count = count.expect("callgrind's count").trim();
    count.parse().expect("a number")
}

/// The instructions of the work once: of some times, less those of a few. Both are one digit, so that
/// the program takes as long to read either.
fn instructions_once(who: &str, work: Work) -> f64 {
    let times = [2, 9];
    let [few, some] = at_once(times, |times| instructions(who, work, times));
    (some - few) / f64::from(times[1] - times[0])
}

/// Counts some things at once. What runs beside it does not change a count.
fn at_once<T: Send + Copy, const M: usize>(
    things: [T; M],
    count: impl Fn(T) -> f64 + Sync,
) -> [f64; M] {
    let count = &count;
    thread::scope(|scope| {
        let counting = things.map(|thing| scope.spawn(move || count(thing)));
        counting.map(|counting| counting.join().expect("a count"))
    })
}

/// A line for some work, of which the instructions are told `per` times less. Whether the guard takes
/// few enough.
fn count_line(name: &str, work: Work, per: f64, most: Most) -> bool {
    let [guard, second] = at_once(["guard", "second"], |who| {
        instructions_once(who, work) / per
    });
    let ratio = guard / second;
    println!("| {name} | {guard:.0} | {second:.0} | {ratio:.2} |");
    match most {
        Most::Times(most) => ratio <= most,
        Most::Instructions(most) => guard.round() <= most,
        Most::Any => true,
    }
}

/// Which counts of instructions are small enough.
fn count_instructions() -> Vec<bool> {
    println!();
    println!("| instructions | guard | second guard | ratio |");
    println!("|---|---:|---:|---:|");
    [count_rounds(), count_reading()].concat()
}

fn count_rounds() -> Vec<bool> {
    let mut fine = Vec::new();
    for (place, shape) in SHAPES.into_iter().enumerate() {
        let (sheet, question) = many_rounds(shape);
        let count = rounds(&sheet, &question) as f64;
        let name = format!("one round, {}", shape.text());
        let most = most_of_round(shape);
        fine.push(count_line(&name, Work::Decide(place), count, most));
    }
    for (group, (name, asked, most)) in GROUPS.into_iter().enumerate() {
        let name = format!("one round, {name}");
        let count = rounds_of_all(&asked());
        fine.push(count_line(&name, Work::Ask(group), count, most));
    }
    for (place, (_, count, most)) in WORST_CASES.into_iter().enumerate() {
        let name = format!("one round, worst case, {}", worst_with(place, count).0);
        fine.push(count_line(&name, Work::Worst(place), count.into(), most));
    }
    fine
}

fn count_reading() -> Vec<bool> {
    let read = |(size, (name, _)): (usize, &Size)| {
        let name = format!("reading a sheet, {name}");
        count_line(&name, Work::Read(size), 1.0, MOST_OF_READING)
    };
    SIZES.iter().enumerate().map(read).collect()
}

/// The lines of decisions on one sheet with ever more rounds.
fn time_decisions() {
    let (sheet, measured) = model(2, 3, 2, Kind::Fixed);
    let bytes = sheet_bytes(&sheet);
    for allowance in ALLOWANCES {
        let question = question_bytes(allowance, 5, &measured, 2);
        assert_eq!(rounds(&bytes, &question), u64::from(allowance));
        let name = format!("decision, rounds {allowance} (n 2, bands 3)");
        line(&name, &decide(&bytes, &question), 1.0);
    }
}

/// The lines of a round.
fn time_rounds() {
    for shape in SHAPES {
        let (bytes, question) = many_rounds(shape);
        let count = rounds(&bytes, &question);
        let name = format!("one round, {}", shape.text());
        line(&name, &decide(&bytes, &question), count as f64);
    }
    for (name, asked, _) in GROUPS {
        let asked = asked();
        let times = compare(
            || ask_all(&asked, decide_by_guard),
            || ask_all(&asked, decide_by_second),
        );
        line(&format!("one round, {name}"), &times, rounds_of_all(&asked));
    }
}

/// The lines of reading a sheet.
fn time_reading() {
    for (size, (name, _)) in SIZES.iter().enumerate() {
        let bytes = sheet_of_size(size);
        let name = format!("reading a sheet, {name} ({} bytes)", bytes.len());
        line(&name, &read(&bytes), 1.0);
    }
}

/// The lines of the cases with the most rounds, and of a round of each.
fn time_worst_cases() {
    for place in 0..WORST_CASES.len() {
        let (shape, bytes, question) = worst_with(place, 1_000_000);
        let count = rounds(&bytes, &question);
        assert!(count > 100_000, "a worst case has over 100,000 rounds");
        let times = decide(&bytes, &question);
        line(
            &format!("worst case, rounds {count} ({shape})"),
            &times,
            1.0,
        );
        line(&format!("one round of it ({shape})"), &times, count as f64);
    }
}

/// The lines of a round of the guard under the coach's commands: its time and its instructions under
/// one command, and how many times those it takes under a span.
fn compare_spans() {
    println!();
    println!(
        "| one round under the coach's commands | {} | ratio |",
        ASKED_BY.join(" | ")
    );
    println!("|---|---:|---:|---:|---:|");
    for (n, bands) in SPAN_SHAPES {
        let shape = format!("n {n}, bands {bands}");
        time_spans(&shape, n, bands);
        count_spans(&shape, n, bands);
    }
}

/// The answers by `QS` and by a `QR` of that command have to be alike, else the program ends here.
fn time_spans(shape: &str, n: usize, bands: usize) {
    let asked = [0, 1, 2].map(|asked_by| rounds_of_coach(n, bands, asked_by));
    let by = |place: usize| decide_by_guard(&asked[place].0, &asked[place].1);
    assert_eq!(by(0), by(1), "a span of one command is answered alike");
    let per = |place: usize| rounds(&asked[place].0, &asked[place].1) as f64;
    let (one, all) = (
        take_turns(|| by(1), || by(0)),
        take_turns(|| by(2), || by(0)),
    );
    println!(
        "| time, {shape} | {} | {} | {} | {:.2} |",
        show(one.second / per(0)),
        show(one.guard / per(1)),
        show(all.guard / per(2)),
        all.ratio * per(0) / per(2)
    );
}

fn count_spans(shape: &str, n: usize, bands: usize) {
    let counts = at_once([0, 1, 2], |asked_by| {
        let (sheet, question) = rounds_of_coach(n, bands, asked_by);
        let work = Work::Coach(n, bands, asked_by);
        instructions_once("guard", work) / rounds(&sheet, &question) as f64
    });
    println!(
        "| instructions, {shape} | {:.0} | {:.0} | {:.0} | {:.2} |",
        counts[0],
        counts[1],
        counts[2],
        counts[2] / counts[0]
    );
}

/// The lines of a decision by readings beside the same one by bytes; which of those that are judged take
/// few enough instructions.
fn compare_readings() -> Vec<bool> {
    println!();
    println!(
        "| instructions of a decision by | {} | more for a reading | ratio |",
        TOLD_BY.join(" | ")
    );
    println!("|---|---:|---:|---:|---:|---:|");
    let mut fine = Vec::new();
    for shape in 0..TOLD_SHAPES.len() {
        for (place, &rounds) in TOLD_ROUNDS.iter().enumerate() {
            let small = count_readings(shape, place);
            fine.extend((rounds >= JUDGED_ROUNDS).then_some(small));
        }
    }
    fine
}

/// The answers by bytes and by readings have to be alike, else the program ends here.
fn count_readings(shape: usize, place: usize) -> bool {
    let ((n, bands), rounds) = (TOLD_SHAPES[shape], TOLD_ROUNDS[place]);
    for told_by in [1, 2] {
        let told = Told::new((n, bands), rounds, told_by);
        let expected = told.by_bytes("second");
        assert_eq!(archive::Answer(expected).rounds(), rounds);
        for answer in [told.by_readings("second"), told.by_readings("guard")] {
            assert_eq!(answer, expected, "the same answer by readings");
        }
    }
    let [bytes, points, pairs] = at_once([0, 1, 2], |told_by| {
        instructions_once("guard", Work::Told(shape, place, told_by))
    });
    let dearer = points.max(pairs);
    let (more, ratio) = ((dearer - bytes) / n as f64, dearer / bytes);
    println!("| rounds {rounds}, n {n}, bands {bands} | {bytes:.0} | {points:.0} | {pairs:.0} | {more:.0} | {ratio:.3} |");
    ratio <= MOST_BY_READINGS
}

fn main() {
    let words: Vec<String> = std::env::args().skip(1).collect();
    if words.first().is_some_and(|word| word == COUNTED) {
        return run_counted(&words[1..]);
    }
    println!("| case | guard | second guard | ratio |");
    println!("|---|---:|---:|---:|");
    time_decisions();
    time_rounds();
    time_reading();
    time_worst_cases();
    let mut fine = count_instructions();
    compare_spans();
    fine.extend(compare_readings());
    // each decision and each sheet of the first table, each shape of the third and each line of the fourth has
    // compared two answers
    let alike = [
        ALLOWANCES.len(),
        SHAPES.len(),
        SPAN_SHAPES.len(),
        GROUPS.len(),
        TOLD_SHAPES.len() * TOLD_ROUNDS.len(),
    ];
    let alike = alike.iter().sum::<usize>() + SIZES.len() + WORST_CASES.len();
    let failed = fine.iter().filter(|&&fine| !fine).count();
    println!("{} passed, {failed} failed", alike + fine.len() - failed);
    std::process::exit(i32::from(failed > 0));
}
