//! Buffers between two pages that may not be touched,
//! so that an access outside a buffer is caught at once.

use std::ffi::c_void;

extern "C" {
    fn mmap(
        address: *mut c_void,
        length: usize,
        protection: i32,
        flags: i32,
        file: i32,
        offset: i64,
    ) -> *mut c_void;
    fn mprotect(address: *mut c_void, length: usize, protection: i32) -> i32;
    fn sysconf(name: i32) -> i64;
    fn signal(number: i32, handler: usize) -> usize;
    fn write(file: i32, bytes: *const u8, length: usize) -> isize;
    fn _exit(code: i32) -> !;
}

const NO_ACCESS: i32 = 0;
const READ: i32 = 1;
const READ_WRITE: i32 = 3;
const PRIVATE_ANONYMOUS: i32 = 0x22;
const PAGE_SIZE: i32 = 30;
const BUS_ERROR: i32 = 7;
const SEGMENT_FAULT: i32 = 11;

/// What fills the bytes around a lent buffer.
const FILLER: u8 = 0xC7;
static FILLED: [u8; 4_096] = [FILLER; 4_096];

/// Pages of memory with a forbidden page before and after them.
pub struct Fenced {
    first: *mut u8,
    length: usize,
    lent: (usize, usize),
}

/// Which fence the lent buffer stands against.
#[derive(Clone, Copy, Debug)]
pub enum Side {
    Start,
    End,
}

impl Fenced {
    /// Room for at least so many bytes.
    pub fn new(room: usize) -> Fenced {
        unsafe {
            let page = sysconf(PAGE_SIZE) as usize;
            let length = room.div_ceil(page).max(1) * page;
            let all = mmap(
                std::ptr::null_mut(),
                length + 2 * page,
                NO_ACCESS,
                PRIVATE_ANONYMOUS,
                -1,
                0,
            );
            assert!(all as isize != -1, "no memory for a fenced buffer");
            let first = all.cast::<u8>().add(page);
            let open = mprotect(first.cast(), length, READ_WRITE);
            assert_eq!(open, 0, "the pages between the fences cannot be opened");
            first.write_bytes(FILLER, length);
            Fenced {
                first,
                length,
                lent: (0, 0),
            }
        }
    }

    fn all(&mut self) -> &mut [u8] {
        unsafe { std::slice::from_raw_parts_mut(self.first, self.length) }
    }

    /// Lends a buffer with these bytes that touches one fence.
    pub fn lend(&mut self, bytes: &[u8], side: Side) -> &mut [u8] {
        let (from, length) = self.lent;
        self.all()[from..from + length].fill(FILLER);
        let from = match side {
            Side::Start => 0,
            Side::End => self.length - bytes.len(),
        };
        self.lent = (from, bytes.len());
        let lent = &mut self.all()[from..from + bytes.len()];
        lent.copy_from_slice(bytes);
        lent
    }

    /// The bytes of the lent buffer now.
    pub fn lent(&mut self) -> &[u8] {
        let (from, length) = self.lent;
        &self.all()[from..from + length]
    }

    /// The bytes around the lent buffer are as they were; where not, they are put right.
    pub fn surroundings_kept(&mut self) -> bool {
        let (from, length) = self.lent;
        let kept = |bytes: &[u8]| {
            bytes
                .chunks(FILLED.len())
                .all(|chunk| chunk == &FILLED[..chunk.len()])
        };
        let all = self.all();
        if kept(&all[..from]) && kept(&all[from + length..]) {
            return true;
        }
        all[..from].fill(FILLER);
        all[from + length..].fill(FILLER);
        false
    }

    /// Forbids or allows writing, for a buffer that is only to be read.
    pub fn lock(&mut self, locked: bool) {
        let protection = if locked { READ } else { READ_WRITE };
        let changed = unsafe { mprotect(self.first.cast(), self.length, protection) };
        assert_eq!(changed, 0, "the protection of a buffer cannot be changed");
    }
}

/// A lent buffer as an array of numbers, which has its length and starts at a multiple of four bytes.
pub fn array<const N: usize>(bytes: &[u8]) -> &[i32; N] {
    let pointer = bytes.as_ptr().cast::<[i32; N]>();
    assert!(bytes.len() == size_of::<[i32; N]>() && pointer.is_aligned());
    unsafe { &*pointer }
}

/// The same of a buffer that is written.
pub fn array_mut<const N: usize>(bytes: &mut [u8]) -> &mut [i32; N] {
    let pointer = bytes.as_mut_ptr().cast::<[i32; N]>();
    assert!(bytes.len() == size_of::<[i32; N]>() && pointer.is_aligned());
    unsafe { &mut *pointer }
}

/// A lent buffer as floats; it starts at a multiple of four bytes and has whole ones alone.
pub fn floats(bytes: &[u8]) -> &[f32] {
    let pointer = bytes.as_ptr().cast::<f32>();
    assert!(bytes.len() % size_of::<f32>() == 0 && pointer.is_aligned());
    unsafe { std::slice::from_raw_parts(pointer, bytes.len() / size_of::<f32>()) }
}

extern "C" fn caught(_number: i32) {
    let text = b"WRONG: access outside a buffer, or a write to one that is only read\n0 passed, 1 failed\n";
    unsafe {
        write(1, text.as_ptr(), text.len());
        _exit(1);
    }
}

/// From now on a touched fence ends the program with a failure.
pub fn watch_fences() {
    let handler = caught as extern "C" fn(i32) as usize;
    unsafe {
        signal(SEGMENT_FAULT, handler);
        signal(BUS_ERROR, handler);
    }
}
