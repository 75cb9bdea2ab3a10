//! What the archive's calls should answer, worked out by the second guard:
//! the same arguments, the same packed numbers, the same buffers.

use crate::archive::{Answer, ReachCall};
use second_guard::boxes::StateBox;
use second_guard::decision::{
    self, check_recovery_watched, decide_watched, pack_refusal, read_question, Faults,
};
use second_guard::reach::{self, Law};
use second_guard::readings::decide_slices;
use second_guard::sheet::{self, Refusal, Sheet, NUMBERS};
use second_guard::whole::WholeNeighborhoods;

/// The answer of a call that gives one number, or is refused.
fn answer(given: Result<u64, Refusal>) -> Answer {
    Answer(given.unwrap_or_else(pack_refusal))
}

pub fn sheet(sheet: &[u8]) -> Answer {
    answer(sheet::read(sheet).map(|_| 0))
}

/// Puts a sheet's numbers and answers 0, or answers the number of the refusal and puts none.
pub fn numbers(sheet: &[u8], numbers: &mut [i32; NUMBERS]) -> u8 {
    match sheet::read(sheet) {
        Ok(read) => {
            *numbers = read.numbers();
            0
        }
        Err(refusal) => refusal.number(),
    }
}

pub fn recovery(sheet: &[u8]) -> Answer {
    Answer(decision::check_recovery(sheet).pack())
}

pub fn decide(sheet: &[u8], question: &[u8]) -> Answer {
    Answer(decision::decide(sheet, question).pack())
}

pub fn decide_readings(sheet: &[u8], head: &[u8], kinds: &[u8], values: &[f32]) -> Answer {
    Answer(decide_slices(sheet, head, kinds, values).pack())
}

/// What the decision was before paper 3 of document 02.
pub fn decide_before(sheet: &[u8], question: &[u8]) -> Answer {
    answer(sheet::read(sheet).and_then(|sheet| {
        let question = read_question(&sheet, question)?;
        let faults = Faults::default();
        Ok(decide_watched(&sheet, &question, faults, &mut WholeNeighborhoods).pack())
    }))
}

/// The same of the recovery check.
pub fn recovery_before(sheet: &[u8]) -> Answer {
    answer(
        sheet::read(sheet)
            .map(|sheet| check_recovery_watched(&sheet, &mut WholeNeighborhoods).pack()),
    )
}

pub fn sheet_read(sheet: &[u8], numbers: &mut [i32; NUMBERS]) -> Answer {
    answer(sheet::read(sheet).map(|values| {
        *numbers = values.numbers();
        values.length() as u64
    }))
}

pub fn sheet_write(numbers: &[i32; NUMBERS], buffer: &mut [u8], place: u64) -> Answer {
    let written = sheet::write(&Sheet::from_numbers(numbers), buffer, place);
    answer(written.map(|length| length as u64))
}

/// A box's n pairs of sides as bytes.
pub fn pairs(sides: &StateBox, n: usize) -> Vec<u8> {
    let mut bytes = Vec::with_capacity(8 * n);
    for i in 0..n {
        bytes.extend((sides.lower[i] as i32).to_be_bytes());
        bytes.extend((sides.upper[i] as i32).to_be_bytes());
    }
    bytes
}

pub fn reach(sheet: &[u8], call: ReachCall, start: &[u8], out: &mut [u8]) -> Answer {
    let mut run = || {
        let sheet = sheet::read(sheet)?;
        let n = sheet.n();
        let law = match call.law {
            0 => Law::Baseline,
            _ => Law::command(call.command),
        };
        // A start of another length comes after 16 and 14, as a box out of order does.
        let mut disordered = StateBox::default();
        disordered.lower[0] = 1;
        let start = StateBox::from_pairs(start, n).unwrap_or(disordered);
        let reached = reach::reach(&sheet, call.ticks, call.width, law, &start)?;
        let out = out.get_mut(..16 * n).ok_or(Refusal::Room)?;
        let (end, swept) = out.split_at_mut(8 * n);
        end.copy_from_slice(&pairs(&reached.end, n));
        swept.copy_from_slice(&pairs(&reached.swept, n));
        Ok(reached.rounds)
    };
    answer(run())
}
