//! The decision and the recovery check, as packed numbers.

use crate::reach::{lies_in, shares_a_state, step, to_box, Count, Law, Spent, StateBox};
use crate::sheet::{read, read_question, Question, Sheet};

pub const KEEP: u64 = 0;
pub const FINEST: u64 = 1;
pub const SPENT: u64 = 2;
pub const REFUSED: u64 = 3;
/// The recovery check's codes.
pub const PASS: u64 = 0;
pub const FAIL: u64 = 1;

/// code * 2^48 + w * 2^32 + rounds.
pub fn pack(code: u64, w: u64, rounds: u64) -> u64 {
    code * (1 << 48) + w * (1 << 32) + rounds
}

/// Code, w and rounds of a packed number.
pub fn unpack(number: u64) -> (u64, u64, u64) {
    (
        number / (1 << 48),
        number / (1 << 32) % (1 << 16),
        number % (1 << 32),
    )
}

/// One reach of an attempt.
struct Leg {
    ticks: u16,
    law: Law,
}

/// One attempt at one width: true for success, false for failure.
fn attempt(
    sheet: &Sheet,
    width: i64,
    legs: &[Leg],
    first: &StateBox,
    count: &mut Count,
) -> Result<bool, Spent> {
    let mut at = first.clone();
    for leg in legs {
        let mut left = leg.ticks as i64;
        while left > 0 {
            let settled = step(sheet, &at, left.min(width), leg.law, count)?;
            // It fails as soon as a swept box shares a state with a no-go box.
            for k in 0..sheet.no_go as usize {
                let no_go = to_box(&sheet.no_go_box[k], sheet.n);
                if shares_a_state(&settled.swept, &no_go) {
                    return Ok(false);
                }
            }
            left -= settled.k;
            at = settled.end;
        }
    }
    // Or if the last end box is not within the recovery box.
    Ok(lies_in(&at, &to_box(&sheet.recovery, sheet.n)))
}

/// How the attempts ended.
enum Ended {
    Success,
    FailureAtOne,
    OutOfRounds,
}

/// Attempts at the first width, then half, rounded down, to 1. Answers with the
/// current width.
fn attempts(
    sheet: &Sheet,
    first_width: i64,
    legs: &[Leg],
    first: &StateBox,
    count: &mut Count,
) -> (Ended, i64) {
    let mut width = first_width;
    loop {
        match attempt(sheet, width, legs, first, count) {
            Ok(true) => return (Ended::Success, width),
            Ok(false) => {
                if width == 1 {
                    return (Ended::FailureAtOne, width);
                }
                width /= 2;
            }
            Err(Spent) => return (Ended::OutOfRounds, width),
        }
    }
}

/// The decision on a question's bytes to a sheet's bytes.
pub fn decide(bytes: &[u8], question: &[u8]) -> u64 {
    let sheet = match read(bytes) {
        Ok(sheet) => sheet,
        Err(number) => return pack(REFUSED, number as u64, 0),
    };
    let question = match read_question(&sheet, question) {
        Ok(question) => question,
        Err(number) => return pack(REFUSED, number as u64, 0),
    };
    decide_values(&sheet, &question)
}

/// The decision on values, which are not tested here: the no-go boxes may stand in any order, and on
/// the recovery box.
pub fn decide_values(sheet: &Sheet, question: &Question) -> u64 {
    let legs = [
        Leg {
            ticks: sheet.delta,
            // A keep covers any command of the span at each tick.
            law: Some((question.least, question.greatest)),
        },
        Leg {
            ticks: sheet.alpha,
            law: None,
        },
    ];
    let first_width = sheet.delta.max(sheet.alpha) as i64;
    let measured = to_box(&question.measured, sheet.n);
    let mut count = Count {
        rounds: 0,
        allowance: Some(question.allowance as u64),
    };
    let (ended, width) = attempts(sheet, first_width, &legs, &measured, &mut count);
    let code = match ended {
        Ended::Success => KEEP,
        Ended::FailureAtOne => FINEST,
        Ended::OutOfRounds => SPENT,
    };
    pack(code, width as u64, count.rounds)
}

/// The recovery check of a sheet's bytes.
pub fn recovery(bytes: &[u8]) -> u64 {
    let sheet = match read(bytes) {
        Ok(sheet) => sheet,
        Err(number) => return pack(REFUSED, number as u64, 0),
    };
    recovery_values(&sheet)
}

/// The recovery check of values, which are not tested here.
pub fn recovery_values(sheet: &Sheet) -> u64 {
    let legs = [Leg {
        ticks: sheet.rho,
        law: None,
    }];
    let recovery_box = to_box(&sheet.recovery, sheet.n);
    let mut count = Count {
        rounds: 0,
        allowance: None,
    };
    let (ended, width) = attempts(sheet, sheet.rho as i64, &legs, &recovery_box, &mut count);
    let code = match ended {
        Ended::Success => PASS,
        Ended::FailureAtOne => FAIL,
        Ended::OutOfRounds => unreachable!("no allowance"),
    };
    pack(code, width as u64, count.rounds)
}
