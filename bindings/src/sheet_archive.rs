//! The calls of include/sheet.h: the archive of the crate `sheet_c` alone.

use crate::format::NUMBERS;

mod c {
    extern "C" {
        pub fn sheet_numbers() -> u64;
        pub fn sheet_read(sheet: *const u8, sheet_length: usize, numbers: *mut i32) -> u8;
    }
}

/// How many numbers the archive's array has.
pub fn numbers() -> u64 {
    // SAFETY: the call has no argument.
    unsafe { c::sheet_numbers() }
}

/// An archive whose array has `NUMBERS` numbers. That is asked once and not at each sheet.
#[derive(Clone, Copy, Debug)]
pub struct SheetArchive(());

impl SheetArchive {
    /// Panics where the archive is of another version.
    pub fn new() -> SheetArchive {
        assert_eq!(
            numbers(),
            NUMBERS as u64,
            "the archive is of another version"
        );
        SheetArchive(())
    }

    /// Puts a sheet's numbers at their slots and answers 0, or answers the number of the refusal.
    #[inline]
    pub fn read(self, sheet: &[u8], array: &mut [i32; NUMBERS]) -> u8 {
        // SAFETY: the pointer and the length are one slice's; the call writes to `array` alone, which
        // has the archive's size.
        unsafe { c::sheet_read(sheet.as_ptr(), sheet.len(), array.as_mut_ptr()) }
    }
}

impl Default for SheetArchive {
    fn default() -> SheetArchive {
        SheetArchive::new()
    }
}
