//! The no-go records of a sheet's bytes: which of them is not greater than the one before, and the same
//! bytes with these records in ascending order. Whether bytes are a sheet is what the archive says.

use crate::archive;
use crate::box_order::{ascending, compare, words};
use crate::file::UNSAFE_MARK;
use crate::file_refusal::{fault, refused};
use crate::records::{parts, Parts};
use crate::tokens::Fault;
use std::cmp::Ordering;

/// The refusal of a no-go record that is not greater than the one before.
pub const ORDER: u8 = 20;

/// A sheet's bytes, and which numbers their no-go records had before, counted from 0.
pub struct Ordered {
    pub order: Vec<usize>,
    pub bytes: Vec<u8>,
}

impl Parts<'_> {
    /// The records' numbers as they stand.
    pub fn standing(&self) -> Vec<usize> {
        (0..self.records.len()).collect()
    }

    /// The records' numbers in ascending order. A record with another mark stays, and so do all after it.
    fn ascending(&self) -> Vec<usize> {
        let is_marked = |record: &&&[u8]| record.starts_with(UNSAFE_MARK);
        let marked = self.records.iter().take_while(is_marked).count();
        let mut order = ascending(&self.boxes()[..marked], self.n);
        order.extend(marked..self.records.len());
        order
    }

    /// The file with its no-go records in this order, each moved whole.
    fn bytes(&self, order: &[usize]) -> Vec<u8> {
        let records: Vec<&[u8]> = order.iter().map(|&j| self.records[j]).collect();
        [self.before, &records.concat(), self.recovery].concat()
    }

    /// Which record is not greater than the one before it in this order, in words with the numbers as they
    /// stand.
    pub fn at_fault(&self, order: &[usize]) -> Option<String> {
        let boxes = self.boxes();
        let found = |pair: &[usize]| compare(&boxes[pair[1]], &boxes[pair[0]], self.n);
        let pair = order.windows(2).find(|pair| found(pair).is_le())?;
        let hint = match found(pair) {
            Ordering::Less => {
                " (to put them in order, pack the sheet's text again, or run sheet order on this file)"
            }
            _ => "",
        };
        let words = words(found(pair));
        let (this, other) = (pair[1] + 1, pair[0] + 1);
        Some(format!(
            "no-go record {this} {words} no-go record {other}{hint}"
        ))
    }
}

/// The file with its no-go records in ascending order; nothing where the archive accepts it as it is.
/// The archive accepts what this gives. A fault has the records' numbers in the file that is given.
pub fn in_order(file: &[u8]) -> Result<Option<Ordered>, Fault> {
    let parts = match archive::read(file) {
        Ok(_) => return Ok(None),
        Err(ORDER) => parts(file).ok_or_else(|| refused(ORDER, file))?,
        Err(number) => return Err(refused(number, file)),
    };
    let order = parts.ascending();
    let bytes = parts.bytes(&order);
    match archive::read(&bytes) {
        Ok(_) => Ok(Some(Ordered { order, bytes })),
        Err(ORDER) => Err(fault(ORDER, file, parts.at_fault(&order))),
        Err(number) => Err(refused(number, file)),
    }
}

#[cfg(test)]
mod tests {
    use super::*;

    /// The head of a sheet with one variable, and records by their marks and lower sides.
    fn file(records: &[(&[u8; 2], i32)]) -> Vec<u8> {
        let count = records.len() as u8 - 1;
        let mut bytes = vec![b'S', b'H', 1, 1, count];
        for (mark, lower) in records {
            bytes.extend(*mark);
            bytes.extend(lower.to_be_bytes());
            bytes.extend(9_i32.to_be_bytes());
        }
        bytes
    }

    #[test]
    fn no_record_is_moved_past_one_with_another_mark() {
        let cases: [(&[u8; 2], [usize; 4]); 2] = [(b"NG", [3, 2, 1, 0]), (b"NH", [1, 0, 2, 3])];
        for (mark, order) in cases {
            let records = [(b"NG", 4), (b"NG", 3), (mark, 2), (b"NG", 1), (b"RC", 0)];
            let bytes = file(&records);
            let parts = parts(&bytes).expect("the length of these records");
            assert_eq!(parts.ascending(), order);
            assert_eq!(parts.bytes(&parts.standing()), bytes);
            let [a, b, c, d] = order.map(|j| records[j]);
            assert_eq!(parts.bytes(&order), file(&[a, b, c, d, records[4]]));
        }
    }
}
