//! The floor listing: the program's text for the bytes of its two files,
//! the sheet's line first and then one line for each question.

use crate::decision::{check_recovery, decide, question_length, Decision, RecoveryCheck};
use std::fmt::Write;

/// The questions of a file in turn. One with a known mark takes its own length, or what is left where
/// that is less; after an unknown mark, or with one byte left, the rest is the last one.
pub fn questions(asks: &[u8], variables: usize) -> impl Iterator<Item = &[u8]> {
    let mut left = asks;
    std::iter::from_fn(move || {
        let length = question_length(left, variables).unwrap_or(left.len());
        let (question, rest) = left.split_at(length.min(left.len()));
        left = rest;
        (!question.is_empty()).then_some(question)
    })
}

/// A question's line.
fn line(text: &mut String, ordinal: usize, decision: Decision) {
    // Writing to a string does not fail.
    let _ = match decision {
        Decision::Keep { width, rounds } => writeln!(text, "{ordinal} keep {width} {rounds}"),
        Decision::Finest { width, rounds } => {
            writeln!(text, "{ordinal} over finest {width} {rounds}")
        }
        Decision::Spent { width, rounds } => {
            writeln!(text, "{ordinal} over spent {width} {rounds}")
        }
        Decision::Refused(refusal) => writeln!(text, "{ordinal} refused {}", refusal.number()),
    };
}

/// The whole output for `sheet.bin` and `asks.bin`; a missing file is empty.
pub fn listing(sheet: &[u8], asks: &[u8]) -> String {
    match check_recovery(sheet) {
        RecoveryCheck::Refused(refusal) => format!("sheet refused {}\n", refusal.number()),
        RecoveryCheck::Fail { width, rounds } => format!("sheet fail {width} {rounds}\n"),
        RecoveryCheck::Pass { width, rounds } => {
            let mut text = format!("sheet pass {width} {rounds}\n");
            // The sheet passed, so its third byte is n.
            let variables = usize::from(sheet[2]);
            for (index, question) in questions(asks, variables).enumerate() {
                line(&mut text, index + 1, decide(sheet, question));
            }
            text
        }
    }
}
