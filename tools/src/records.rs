//! The no-go records and the recovery record of a sheet's bytes. Whether bytes are a sheet is what the archive
//! says.

use crate::archive;
use crate::file::UNSAFE_MARK;
use guard_bindings::format::PAIR;
use second_guard::boxes::StateBox;

/// A file in parts: all before the no-go records, these records, and the recovery record.
pub struct Parts<'a> {
    pub n: usize,
    pub before: &'a [u8],
    pub records: Vec<&'a [u8]>,
    pub recovery: &'a [u8],
}

/// The parts of a file whose counts and length are those of a sheet.
pub fn parts(file: &[u8]) -> Option<Parts<'_>> {
    let (n, count) = (usize::from(*file.get(2)?), usize::from(*file.get(4)?));
    // The mark of the recovery record has the same length.
    let length = UNSAFE_MARK.len() + PAIR * n;
    let (rest, recovery) = file.split_at(file.len().checked_sub(length)?);
    let (before, records) = rest.split_at(rest.len().checked_sub(length * count)?);
    Some(Parts {
        n,
        before,
        records: records.chunks_exact(length).collect(),
        recovery,
    })
}

impl Parts<'_> {
    pub fn boxes(&self) -> Vec<StateBox> {
        let sides = |record: &&[u8]| archive::box_in(&record[UNSAFE_MARK.len()..]);
        self.records.iter().map(sides).collect()
    }
}
