//! The floor listing, from the archive's answers: what the program prints for the two files.

use crate::archive::{self, Answer};
use crate::causes::cause_with_readings;
use crate::questions::cut;

/// An answer to a question as the listing has it.
fn words(answer: Answer) -> String {
    let (width, rounds) = (answer.width(), answer.rounds());
    match answer.code() {
        0 => format!("keep {width} {rounds}"),
        1 => format!("over finest {width} {rounds}"),
        2 => format!("over spent {width} {rounds}"),
        _ => format!("refused {width}"),
    }
}

/// The answer of a recovery check as the listing has it.
fn recovery_words(answer: Answer) -> String {
    let (width, rounds) = (answer.width(), answer.rounds());
    match answer.code() {
        0 => format!("pass {width} {rounds}"),
        1 => format!("fail {width} {rounds}"),
        _ => format!("refused {width}"),
    }
}

/// All lines for the bytes of the two files.
pub fn listing(sheet: &[u8], asks: &[u8]) -> String {
    // The third byte of a sheet is n.
    let n = sheet.get(2).map_or(0, |&n| usize::from(n));
    listing_of(
        sheet,
        cut(asks, n).map(|question| archive::decide(sheet, question)),
    )
}

/// All lines for a sheet's bytes and the answers to its questions, which are left out where the sheet does not pass.
pub fn listing_of(sheet: &[u8], answers: impl Iterator<Item = Answer>) -> String {
    let recovery = archive::recovery(sheet);
    let mut text = format!("sheet {}\n", recovery_words(recovery));
    if recovery.code() != 0 {
        return text;
    }
    for (index, answer) in answers.enumerate() {
        text.push_str(&format!("{} {}\n", index + 1, words(answer)));
    }
    text
}

/// An answer to a question in a sentence.
pub fn sentence(answer: Answer) -> String {
    let (width, rounds) = (answer.width(), answer.rounds());
    match answer.code() {
        0 => format!("keep, at width {width} after {rounds} rounds"),
        1 => format!("over finest, no width is enough, after {rounds} rounds"),
        2 => format!("over spent, the allowance ends at width {width} after {rounds} rounds"),
        _ => refused(width),
    }
}

/// The answer of a recovery check in a sentence.
pub fn recovery_sentence(answer: Answer) -> String {
    let (width, rounds) = (answer.width(), answer.rounds());
    match answer.code() {
        0 => format!("pass, at width {width} after {rounds} rounds"),
        1 => format!("fail, no width is enough, after {rounds} rounds"),
        _ => refused(width),
    }
}

fn refused(number: u32) -> String {
    format!("refused {number} ({})", cause_with_readings(number as u8))
}
