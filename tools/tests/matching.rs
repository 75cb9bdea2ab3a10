//! Random questions and sheets: `attempts` compares every answer and every step's boxes of the second
//! guard with the archive's, and a difference is an error.

mod common;

use common::{load, Numbers};
use second_guard::boxes::StateBox;
use second_guard::decision::{trace_recovery, Question};
use second_guard::sheet::{CommandRange, Sheet};
use sheet_tool::attempts::{attempts, Attempts, Ending, Subject};
use sheet_tool::questions::{AskedQuestion, Commands};
use sheet_tool::{archive, listing};
use std::collections::BTreeSet;

const NAMES: [&str; 5] = ["sheet_a", "leg_press", "motor", "pendulum", "cable_column"];

/// A question about a small box in or close to the recovery box.
fn random_question(sheet: &Sheet, numbers: &mut Numbers) -> Question {
    let mut measured = StateBox::default();
    for i in 0..sheet.n() {
        let (lower, upper) = (sheet.recovery.lower[i], sheet.recovery.upper[i]);
        let more = (upper - lower) / 8;
        let centre = numbers.whole(lower - more, upper + more);
        let half = numbers.whole(0, 1 + more / 10);
        (measured.lower[i], measured.upper[i]) = (centre - half, centre + half);
    }
    Question {
        allowance: numbers.whole(0, 1_500) as u32,
        span: random_span(sheet, numbers),
        measured,
    }
}

/// One command, a narrow span or any span, each as often as the others.
fn random_span(sheet: &Sheet, numbers: &mut Numbers) -> CommandRange {
    let first = i64::from(sheet.commands.least);
    let last = i64::from(sheet.commands.greatest);
    let least = numbers.whole(first, last);
    let most = match numbers.whole(0, 2) {
        0 => least,
        1 => last.min(least + (last - first) / 20),
        _ => last,
    };
    CommandRange {
        least: least as i32,
        greatest: numbers.whole(least, most) as i32,
    }
}

/// How the last attempt ended.
fn ending(found: &Attempts) -> &'static str {
    match found.last().ending {
        Ending::Success => "success",
        Ending::Unsafe(_) => "unsafe",
        Ending::Outside(_) => "outside",
        Ending::Spent => "spent",
    }
}

/// Both one command and spans are kept, and end in each other way.
#[test]
fn random_questions_to_the_examples() {
    let mut numbers = Numbers(5);
    let mut endings = BTreeSet::new();
    for name in NAMES {
        let (sheet, bytes, _) = load(name);
        for _ in 0..1_000 {
            let question = random_question(&sheet, &mut numbers);
            let found = attempts(&bytes, &sheet, Subject::Question(&question));
            let one = question.span.least == question.span.greatest;
            endings.insert((one, ending(&found.expect("no difference"))));
        }
    }
    assert_eq!(endings.len(), 8, "{endings:?}");
}

/// The sheet with a law in each band, which has any command of the head's and mostly one between its ends.
fn with_laws(mut sheet: Sheet, numbers: &mut Numbers) -> Sheet {
    let commands = sheet.commands;
    let middle = i64::from(commands.least) + i64::from(commands.greatest);
    for band in &mut sheet.bands {
        band.safety = commands;
        band.law.divisor = numbers.whole(1, 100) as i32;
        let constant = i64::from(band.law.divisor) * middle / 2;
        band.law.constant = (constant + numbers.whole(-1_000, 1_000)) as i32;
        for coefficient in &mut band.law.coefficients {
            *coefficient = numbers.whole(-3, 3) as i32;
        }
    }
    sheet
}

/// The steps' commands follow the state, and the questions' do not.
#[test]
fn random_questions_to_machines_with_laws() {
    let mut numbers = Numbers(19);
    let mut endings = BTreeSet::new();
    for name in NAMES {
        let (sheet, _, _) = load(name);
        for _ in 0..300 {
            let sheet = with_laws(sheet, &mut numbers);
            let bytes = archive::write(&sheet).expect("a sheet");
            let question = random_question(&sheet, &mut numbers);
            let found = attempts(&bytes, &sheet, Subject::Question(&question));
            endings.insert(ending(&found.expect("no difference")));
            attempts(&bytes, &sheet, Subject::Recovery).expect("no difference");
        }
    }
    assert_eq!(endings.len(), 4, "{endings:?}");
}

/// The bytes of a random question of either kind.
fn random_bytes(sheet: &Sheet, numbers: &mut Numbers) -> Vec<u8> {
    let Question {
        allowance,
        span,
        measured,
    } = random_question(sheet, numbers);
    let commands = match numbers.whole(0, 2) {
        0 => Commands::One(span.least),
        _ => Commands::Span(span),
    };
    let question = AskedQuestion {
        allowance,
        commands,
        measured,
    };
    question.bytes(sheet.n())
}

/// A few questions, and behind them nothing, a short one, one byte, or an unknown mark with a question behind it.
fn random_file(sheet: &Sheet, numbers: &mut Numbers) -> Vec<u8> {
    let count = numbers.whole(0, 4);
    let questions = (0..count).flat_map(|_| random_bytes(sheet, numbers));
    let mut file: Vec<u8> = questions.collect();
    let mut last = random_bytes(sheet, numbers);
    match numbers.whole(0, 3) {
        0 => return file,
        1 => last.truncate(numbers.whole(2, last.len() as i64 - 1) as usize),
        2 => last.truncate(1),
        _ => {
            last[1] = b'X';
            last.extend(random_bytes(sheet, numbers));
        }
    }
    file.extend(last);
    file
}

/// The tool cuts a file as the second guard does, and has the same answers from the archive.
#[test]
fn random_files_are_listed_alike() {
    let mut numbers = Numbers(13);
    let (mut whole, mut cut_short) = (0, 0);
    for name in NAMES {
        let (sheet, bytes, _) = load(name);
        for _ in 0..100 {
            let file = random_file(&sheet, &mut numbers);
            let listed = listing::listing(&bytes, &file);
            assert_eq!(listed, second_guard::listing::listing(&bytes, &file));
            match listed.ends_with(" refused 12\n") {
                true => cut_short += 1,
                false => whole += 1,
            }
        }
    }
    assert!(whole > 50 && cut_short > 200, "{whole} {cut_short}");
}

/// Without the test of the boxes, the recovery check would fail at this width and at each half of it.
fn fails_at_every_width(sheet: &Sheet, width: u32) -> bool {
    !trace_recovery(sheet, width).succeeded
        && (width == 1 || fails_at_every_width(sheet, width / 2))
}

/// The examples with one number moved, most of them no longer of use. A recovery box that is moved onto a no-go
/// box is refused.
#[test]
fn recovery_checks_of_changed_sheets() {
    let mut numbers = Numbers(6);
    let mut refused = 0;
    for name in NAMES {
        let (sheet, _, _) = load(name);
        for _ in 0..100 {
            let mut sheet = sheet;
            let i = numbers.whole(0, sheet.n() as i64 - 1) as usize;
            let k = numbers.whole(0, sheet.band_count as i64 - 1) as usize;
            match numbers.whole(0, 4) {
                0 => sheet.caps[i] = numbers.whole(1, 200) as i32,
                1 => sheet.rho = numbers.whole(1, 300) as i32,
                2 => sheet.bands[k].rows[i].d = numbers.whole(0, 3_000) as i32,
                3 => sheet.bands[k].rows[i].q = numbers.whole(1, 4_096) as i32,
                _ => sheet.recovery.upper[i] = numbers.whole(sheet.recovery.lower[i], 60_000),
            }
            match archive::write(&sheet) {
                Ok(bytes) => {
                    attempts(&bytes, &sheet, Subject::Recovery).expect("no difference");
                }
                Err(number) => {
                    assert_eq!(number, 22);
                    assert!(fails_at_every_width(&sheet, sheet.rho as u32));
                    refused += 1;
                }
            }
        }
    }
    assert!(refused > 10, "{refused}");
}
