//! The floor listing.

use crate::decision::{decide, recovery, unpack, FAIL, FINEST, KEEP, PASS, REFUSED, SPENT};
use crate::sheet::{question_length, read};

/// The program cuts its file by mark (document 02, paper 4): how many bytes, of
/// those that are left, are the next question.
fn next_length(left: &[u8], n: u8) -> usize {
    // A single byte is no mark.
    if left.len() < 2 {
        return left.len();
    }
    match question_length([left[0], left[1]], n) {
        // A short tail is cut as it is, and refused by 12.
        Some(length) => left.len().min(length),
        // An unknown mark gives a last line with 12.
        None => left.len(),
    }
}

/// The listing's bytes from `sheet.bin` and `asks.bin`; None is a missing file.
pub fn listing(sheet: Option<&[u8]>, asks: Option<&[u8]>) -> Vec<u8> {
    // A missing file reads as empty.
    let sheet = sheet.unwrap_or(&[]);
    let asks = asks.unwrap_or(&[]);
    let mut out = String::new();

    let (code, w, rounds) = unpack(recovery(sheet));
    match code {
        PASS => out.push_str(&format!("sheet pass {w} {rounds}\n")),
        FAIL => out.push_str(&format!("sheet fail {w} {rounds}\n")),
        REFUSED => out.push_str(&format!("sheet refused {w}\n")),
        _ => unreachable!("no such code"),
    }
    // Only after pass follow the questions.
    if code != PASS {
        return out.into_bytes();
    }
    let n = match read(sheet) {
        Ok(sheet) => sheet.n,
        Err(_) => unreachable!("the sheet passed"),
    };
    let mut ordinal: u64 = 1;
    let mut at = 0;
    while at < asks.len() {
        let to = at + next_length(&asks[at..], n);
        let (code, w, rounds) = unpack(decide(sheet, &asks[at..to]));
        match code {
            KEEP => out.push_str(&format!("{ordinal} keep {w} {rounds}\n")),
            FINEST => out.push_str(&format!("{ordinal} over finest {w} {rounds}\n")),
            SPENT => out.push_str(&format!("{ordinal} over spent {w} {rounds}\n")),
            REFUSED => out.push_str(&format!("{ordinal} refused {w}\n")),
            _ => unreachable!("no such code"),
        }
        ordinal += 1;
        at = to;
    }
    out.into_bytes()
}
