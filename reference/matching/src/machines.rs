//! The machines of examples/, and questions to them.

use crate::random::Random;
use second_guard::boxes::StateBox;
use second_guard::decision::Question;
use second_guard::sheet::{CommandRange, Sheet};
use sheet_tool::{asks_text, sheet_parser};
use std::fs;

const EXAMPLES: &str = concat!(env!("CARGO_MANIFEST_DIR"), "/../../examples");

/// A machine of examples/: its sheet, the bytes of it, and its questions.
pub fn machine(name: &str) -> (Sheet, Vec<u8>, Vec<u8>) {
    let read = |end: &str| {
        fs::read_to_string(format!("{EXAMPLES}/{name}{end}")).expect("the example is there")
    };
    let text = sheet_parser::parse(&read(".txt")).expect("a sheet");
    let asks = asks_text::parse(&read(".asks.txt"), &text.sheet, &text.names).expect("questions");
    let bytes = text.bytes().expect("an accepted sheet");
    (text.sheet, bytes, asks.bytes(&text.sheet))
}

/// A small box in or close to the recovery box, and any one command.
pub fn any_question(random: &mut Random, sheet: &Sheet) -> Question {
    let mut measured = StateBox::default();
    for i in 0..sheet.n() {
        let (lower, upper) = (sheet.recovery.lower[i], sheet.recovery.upper[i]);
        let more = (upper - lower) / 4;
        let centre = random.range(lower - more, upper + more);
        let half = random.range(0, 1 + more / 20);
        (measured.lower[i], measured.upper[i]) = (centre - half, centre + half);
    }
    Question {
        allowance: 2_000,
        span: CommandRange::one(random.int(sheet.commands.least, sheet.commands.greatest)),
        measured,
    }
}
