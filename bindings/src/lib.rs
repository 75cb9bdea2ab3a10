//! The calls of include/guard.h, with slices and arrays in place of pointers and lengths. `format` has
//! the slots and lengths, `sheet_archive` the calls of include/sheet.h, `readings_archive` the call of
//! include/readings.h.

pub mod format;
#[cfg(feature = "readings")]
pub mod readings_archive;
#[cfg(feature = "sheet")]
pub mod sheet_archive;

use format::NUMBERS;

mod c {
    extern "C" {
        pub fn guard_sheet(sheet: *const u8, sheet_length: usize) -> u64;
        pub fn guard_recovery(sheet: *const u8, sheet_length: usize) -> u64;
        pub fn guard_decide(
            sheet: *const u8,
            sheet_length: usize,
            question: *const u8,
            question_length: usize,
        ) -> u64;
        pub fn guard_decide_readings(
            sheet: *const u8,
            sheet_length: usize,
            head: *const u8,
            head_length: usize,
            kinds: *const u8,
            kinds_length: usize,
            values: *const f32,
            values_length: usize,
        ) -> u64;
        pub fn guard_numbers() -> u64;
        pub fn guard_sheet_read(sheet: *const u8, sheet_length: usize, numbers: *mut i32) -> u64;
        pub fn guard_sheet_write(
            numbers: *const i32,
            buffer: *mut u8,
            buffer_length: usize,
            place: u64,
        ) -> u64;
        pub fn guard_reach(
            sheet: *const u8,
            sheet_length: usize,
            ticks: u32,
            width: u32,
            law: u32,
            command: i32,
            start: *const u8,
            start_length: usize,
            out: *mut u8,
            out_length: usize,
        ) -> u64;
    }
}

/// An answer: code · 2^48 + width · 2^32 + rounds.
#[derive(Clone, Copy, Debug, PartialEq, Eq)]
pub struct Answer(pub u64);

/// The code of a call that is refused.
const REFUSED: u64 = 3;

impl Answer {
    pub fn code(self) -> u64 {
        self.0 >> 48
    }

    /// The width, or the number of the refusal.
    pub fn width(self) -> u32 {
        (self.0 >> 32) as u32 & 0xffff
    }

    /// The rounds, 0 where the call is refused.
    pub fn rounds(self) -> u32 {
        self.0 as u32
    }

    /// The number of document 01 or 02 where the call is refused.
    pub fn refusal(self) -> Option<u8> {
        (self.code() == REFUSED).then_some(self.width() as u8)
    }

    /// The length of the sheet that was read or written, or the number of the refusal.
    pub fn length(self) -> Result<usize, u8> {
        match self.refusal() {
            Some(number) => Err(number),
            None => Ok(self.rounds() as usize),
        }
    }
}

/// Whether these bytes are a sheet: 0 or a refusal.
pub fn sheet(sheet: &[u8]) -> Answer {
    // SAFETY: the pointer and the length are one slice's.
    Answer(unsafe { c::guard_sheet(sheet.as_ptr(), sheet.len()) })
}

/// The recovery check.
pub fn recovery(sheet: &[u8]) -> Answer {
    // SAFETY: as above.
    Answer(unsafe { c::guard_recovery(sheet.as_ptr(), sheet.len()) })
}

/// The decision on a question about one command or about a span of commands.
pub fn decide(sheet: &[u8], question: &[u8]) -> Answer {
    // SAFETY: each pointer and the length behind it are one slice's.
    Answer(unsafe {
        c::guard_decide(
            sheet.as_ptr(),
            sheet.len(),
            question.as_ptr(),
            question.len(),
        )
    })
}

/// The decision on the bytes before a question's pairs and on the drive's readings: a kind and two
/// floats for each variable.
pub fn decide_readings(sheet: &[u8], head: &[u8], kinds: &[u8], values: &[f32]) -> Answer {
    // SAFETY: as above; `values` has its length in floats.
    Answer(unsafe {
        c::guard_decide_readings(
            sheet.as_ptr(),
            sheet.len(),
            head.as_ptr(),
            head.len(),
            kinds.as_ptr(),
            kinds.len(),
            values.as_ptr(),
            values.len(),
        )
    })
}

/// How many numbers the archive's arrays have.
pub fn numbers() -> u64 {
    // SAFETY: the call has no argument.
    unsafe { c::guard_numbers() }
}

/// Puts a sheet's numbers at their slots; the answer is the sheet's length.
pub fn sheet_read(sheet: &[u8], numbers: &mut [i32; NUMBERS]) -> Answer {
    assert_same_size();
    // SAFETY: as above; the call writes to `numbers` alone, which has the archive's size.
    Answer(unsafe { c::guard_sheet_read(sheet.as_ptr(), sheet.len(), numbers.as_mut_ptr()) })
}

/// Writes the sheet of these numbers into the buffer from `place` on; the answer is its length.
pub fn sheet_write(numbers: &[i32; NUMBERS], buffer: &mut [u8], place: u64) -> Answer {
    assert_same_size();
    // SAFETY: as above, and the call writes to `buffer` alone.
    Answer(unsafe {
        c::guard_sheet_write(numbers.as_ptr(), buffer.as_mut_ptr(), buffer.len(), place)
    })
}

/// A reach's numbers: law 0 is the baseline, any other the command.
#[derive(Clone, Copy, Debug)]
pub struct ReachCall {
    pub ticks: u32,
    pub width: u32,
    pub law: u32,
    pub command: i32,
}

/// Puts the pairs of the end box and of the swept box into `out`; the answer is the rounds.
pub fn reach(sheet: &[u8], call: ReachCall, start: &[u8], out: &mut [u8]) -> Answer {
    // SAFETY: as above, and the call writes to `out` alone.
    Answer(unsafe {
        c::guard_reach(
            sheet.as_ptr(),
            sheet.len(),
            call.ticks,
            call.width,
            call.law,
            call.command,
            start.as_ptr(),
            start.len(),
            out.as_mut_ptr(),
            out.len(),
        )
    })
}

/// An array of another size than the archive's may not be handed over.
fn assert_same_size() {
    assert_eq!(
        numbers(),
        NUMBERS as u64,
        "the archive is of another version"
    );
}
