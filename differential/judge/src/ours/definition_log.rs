//! The functions of include/definition_log.h.

use crate::{
    boxes::Boxes,
    library::{Library, Queries},
    records::Records,
};

#[repr(C)]
struct Answer {
    number: u32,
    returned: u32,
}

#[repr(C)]
struct BoxRead {
    number: u32,
    value: u64,
}

// A slice is passed as its pointer and its length.
#[rustfmt::skip]
unsafe extern "C" {
    fn dl_iter_live_defs_under(w: *const u32, wl: usize, b: *const u8, bl: usize, p: *const u8, pl: usize,
        l: *mut u32, ll: usize) -> Answer;
    fn dl_history(w: *const u32, wl: usize, b: *const u8, bl: usize, p: *const u8, pl: usize, l: *mut u32, ll: usize) -> Answer;
    fn dl_contains_node(w: *const u32, wl: usize, b: *const u8, bl: usize, p: *const u8, pl: usize) -> Answer;
    fn dl_lower(
        w: *const u32, wl: usize, t: *const u8, tl: usize, level: u32, s: *const u32, sl: usize, o: *mut u32, ol: usize,
        b: *mut u8, bl: usize,
    ) -> Answer;
    fn dl_read_box(b: *const u8, bl: usize) -> BoxRead;
    fn dl_write_box(value: u64, o: *mut u8, ol: usize) -> Answer;
}

/// Where a slice starts; an empty one may be null.
fn start<T>(slice: &[T]) -> *const T {
    if slice.is_empty() { std::ptr::null() } else { slice.as_ptr() }
}

fn start_mut<T>(slice: &mut [T]) -> *mut T {
    if slice.is_empty() { std::ptr::null_mut() } else { slice.as_mut_ptr() }
}

impl Answer {
    fn read(self) -> (u32, u32) {
        (self.number, self.returned)
    }
}

/// SAFETY of the calls: each slice is passed with its own length, and `list` is a buffer apart.
#[rustfmt::skip]
const QUERIES: Queries = Queries {
    live: |words, bytes, base, list| unsafe {
        dl_iter_live_defs_under(start(words), words.len(), start(bytes), bytes.len(), start(base), base.len(),
            start_mut(list), list.len()).read()
    },
    history: |words, bytes, path, list| unsafe {
        dl_history(start(words), words.len(), start(bytes), bytes.len(), start(path), path.len(), start_mut(list), list.len()).read()
    },
    contains_node: |words, bytes, path| unsafe {
        dl_contains_node(start(words), words.len(), start(bytes), bytes.len(), start(path), path.len()).read()
    },
};

/// SAFETY of the call: each slice is passed with its own length, and the two buffers are apart.
#[rustfmt::skip]
pub const LIBRARY: Library = Library {
    lower: |records, out, bytes| unsafe {
        let Records { words, text, level, starts } = records;
        dl_lower(
            start(words), words.len(), start(text), text.len(), *level, start(starts), starts.len(), start_mut(out), out.len(),
            start_mut(bytes), bytes.len(),
        )
        .read()
    },
    queries: QUERIES,
};

/// SAFETY of the calls: the slice is passed with its own length.
pub const BOXES: Boxes = Boxes {
    read: |bytes| unsafe {
        let BoxRead { number, value } = dl_read_box(start(bytes), bytes.len());
        (number, value)
    },
    write: |value, out| unsafe { dl_write_box(value, start_mut(out), out.len()).read() },
};
