//! The guard's archive: what it reads, writes and reaches, as values of the second guard.

pub use guard_bindings::readings_archive::side;
pub use guard_bindings::{decide, decide_readings, recovery, sheet, Answer};

use guard_bindings::format::{reach_length, LONGEST_REACH, LONGEST_SHEET, NUMBERS, PAIR};
use guard_bindings::ReachCall;
use second_guard::boxes::StateBox;
use second_guard::reach::Law;
use second_guard::sheet::{BandLaw, CommandRange, Kind, Sheet};
use std::borrow::Cow;

/// The values of a sheet's bytes, or the number of the refusal.
pub fn read(sheet: &[u8]) -> Result<Sheet, u8> {
    let mut numbers = [0; NUMBERS];
    guard_bindings::sheet_read(sheet, &mut numbers).length()?;
    Ok(Sheet::from_numbers(&numbers))
}

/// The bytes of a sheet's values, or the number of the refusal.
pub fn write(sheet: &Sheet) -> Result<Vec<u8>, u8> {
    let mut buffer = vec![0; LONGEST_SHEET];
    let answer = guard_bindings::sheet_write(&sheet.numbers(), &mut buffer, 0);
    buffer.truncate(answer.length()?);
    Ok(buffer)
}

/// The same for values of this kind. A first divisor of 0 is a `BD` sheet to the archive; where the bands have laws
/// it is asked with another divisor out of range, which it refuses in the same place.
pub fn write_as(kind: Kind, sheet: &Sheet) -> Result<Vec<u8>, u8> {
    let mut sheet = *sheet;
    let divisor = &mut sheet.bands[0].law.divisor;
    if kind == Kind::Following && *divisor == 0 {
        *divisor = -1;
    }
    write(&sheet)
}

/// The end box and the swept box of a reach, or the number of the refusal.
pub fn reach(
    sheet: &[u8],
    n: usize,
    ticks: u32,
    width: u32,
    law: Law,
    start: &StateBox,
) -> Result<(StateBox, StateBox), u8> {
    let (sheet, law, command) = called(sheet, law)?;
    let call = ReachCall {
        ticks,
        width,
        law,
        command,
    };
    let start = pairs(start, n).ok_or(15)?;
    let mut out = [0; LONGEST_REACH];
    match guard_bindings::reach(&sheet, call, &start, &mut out).refusal() {
        Some(number) => Err(number),
        None => {
            let (end, swept) = out[..reach_length(n)].split_at(PAIR * n);
            Ok((box_in(end), box_in(swept)))
        }
    }
}

/// The sheet, the law and the command with which `guard_reach` has the boxes of a law: it takes one command or
/// the plain law, but no span. Without laws the plain law uses any command of a band's safety range. So the boxes
/// of a span are those of the plain law on the sheet without laws that has the span as every band's safety range.
fn called(sheet: &[u8], law: Law) -> Result<(Cow<'_, [u8]>, u32, i32), u8> {
    match law {
        Law::Baseline => Ok((sheet.into(), 0, 0)),
        Law::Span { least, greatest } if least == greatest => Ok((sheet.into(), 1, least)),
        Law::Span { least, greatest } => {
            let mut of_span = read(sheet)?;
            for band in &mut of_span.bands {
                band.safety = CommandRange { least, greatest };
                band.law = BandLaw::default();
            }
            Ok((write(&of_span)?.into(), 0, 0))
        }
    }
}

/// n pairs of sides as bytes; nothing where a side does not fit four bytes.
pub fn pairs(sides: &StateBox, n: usize) -> Option<Vec<u8>> {
    let mut bytes = Vec::new();
    for i in 0..n {
        for side in [sides.lower[i], sides.upper[i]] {
            bytes.extend(i32::try_from(side).ok()?.to_be_bytes());
        }
    }
    Some(bytes)
}

fn numbers_in(bytes: &[u8]) -> impl Iterator<Item = i32> + '_ {
    bytes
        .chunks_exact(4)
        .map(|four| i32::from_be_bytes(four.try_into().expect("four bytes")))
}

/// The box whose pairs of sides these bytes are.
pub fn box_in(bytes: &[u8]) -> StateBox {
    let mut sides = StateBox::default();
    for (j, side) in numbers_in(bytes).enumerate() {
        let face = if j % 2 == 0 {
            &mut sides.lower
        } else {
            &mut sides.upper
        };
        face[j / 2] = i64::from(side);
    }
    sides
}
