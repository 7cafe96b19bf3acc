//! Memory between two stretches that can't be read: a byte that is read or written outside of a text in it ends the run.

use std::{ptr, slice};

/// Bytes of each stretch: a multiple of every page's, and the most that a text may have.
pub const MOST: usize = 1 << 17;

/// For 64-bit Linux: no access, reading and writing; memory of one's own that no file has.
const NONE: i32 = 0;
const READ_WRITE: i32 = 3;
const OWN: i32 = 0x22;

unsafe extern "C" {
    fn mmap(at: *mut u8, length: usize, access: i32, flags: i32, file: i32, offset: i64) -> *mut u8;
    fn mprotect(at: *mut u8, length: usize, access: i32) -> i32;
}

/// The stretch in the middle.
pub struct Guarded(*mut u8);

impl Guarded {
    /// Maps it; it stays until the program ends.
    pub fn new() -> Self {
        // SAFETY: new memory, of which nobody else knows; a failure is the address -1, or a status that is not 0.
        unsafe {
            let start = mmap(ptr::null_mut(), 3 * MOST, NONE, OWN, -1, 0);
            assert_ne!(start.addr(), usize::MAX, "there is memory");
            let middle = start.add(MOST);
            assert_eq!(mprotect(middle, MOST, READ_WRITE), 0, "it can be opened");
            Self(middle)
        }
    }

    /// What is given for a text right behind memory that can't be read, and right before it. It has at most `MOST` bytes.
    pub fn lent<T>(&mut self, text: &[u8], ask: impl Fn(&mut [u8]) -> T) -> [T; 2] {
        [0, MOST - text.len()].map(|at| {
            // SAFETY: the text lies in the stretch, which nothing else uses.
            let lent = unsafe { slice::from_raw_parts_mut(self.0.add(at), text.len()) };
            lent.copy_from_slice(text);
            ask(lent)
        })
    }
}
