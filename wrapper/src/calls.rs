//! The functions of `include/definition_log.h`, called with slices. All that is unsafe is here.

/// 01's number, and what is returned with it.
#[repr(C)]
#[derive(Clone, Copy)]
pub(crate) struct DlAnswer {
    pub(crate) number: u32,
    pub(crate) returned: u32,
}

/// A box number with number 0, or why there is none, with value 0.
#[repr(C)]
#[derive(Clone, Copy)]
pub(crate) struct DlBox {
    pub(crate) number: u32,
    pub(crate) value: u64,
}

unsafe extern "C" {
    fn dl_lower(
        words: *const u32,
        words_len: usize,
        text: *const u8,
        text_len: usize,
        level: u32,
        starts: *const u32,
        starts_len: usize,
        out: *mut u32,
        out_len: usize,
        bytes: *mut u8,
        bytes_len: usize,
    ) -> DlAnswer;

    fn dl_iter_live_defs_under(
        words: *const u32,
        words_len: usize,
        bytes: *const u8,
        bytes_len: usize,
        base: *const u8,
        base_len: usize,
        list: *mut u32,
        list_len: usize,
    ) -> DlAnswer;

    fn dl_history(
        words: *const u32,
        words_len: usize,
        bytes: *const u8,
        bytes_len: usize,
        path: *const u8,
        path_len: usize,
        list: *mut u32,
        list_len: usize,
    ) -> DlAnswer;

    fn dl_contains_node(
        words: *const u32,
        words_len: usize,
        bytes: *const u8,
        bytes_len: usize,
        path: *const u8,
        path_len: usize,
    ) -> DlAnswer;

    fn dl_read_box(packed: *const u8, packed_len: usize) -> DlBox;

    fn dl_write_box(value: u64, packed: *mut u8, packed_len: usize) -> DlAnswer;
}

/// Lowers a description at a level, of the files with these starts, into two buffers.
pub(crate) fn lower(
    words: &[u32],
    text: &[u8],
    level: u32,
    starts: &[u32],
    out: &mut [u32],
    bytes: &mut [u8],
) -> DlAnswer {
    // SAFETY: each pointer is a slice's, aligned and with that slice's length in elements, so that
    // many can be read there and, of `out` and `bytes`, written. Those two are borrowed mutably, so
    // they overlap neither each other nor the rest. The function keeps no pointer and writes only
    // these two, with any words and bytes.
    unsafe {
        dl_lower(
            words.as_ptr(),
            words.len(),
            text.as_ptr(),
            text.len(),
            level,
            starts.as_ptr(),
            starts.len(),
            out.as_mut_ptr(),
            out.len(),
            bytes.as_mut_ptr(),
            bytes.len(),
        )
    }
}

/// The definitions that are live under a base, into a list.
pub(crate) fn iter_live_defs_under(words: &[u32], bytes: &[u8], base: &[u8], list: &mut [u32]) -> DlAnswer {
    // SAFETY: each pointer is a slice's, aligned and with that slice's length in elements, so that
    // many can be read there and, of `list`, written. `list` is borrowed mutably, so it overlaps
    // none of the others. The function keeps no pointer and writes only `list`, with any words.
    unsafe {
        dl_iter_live_defs_under(
            words.as_ptr(),
            words.len(),
            bytes.as_ptr(),
            bytes.len(),
            base.as_ptr(),
            base.len(),
            list.as_mut_ptr(),
            list.len(),
        )
    }
}

/// The history of a path, into a list.
pub(crate) fn history(words: &[u32], bytes: &[u8], path: &[u8], list: &mut [u32]) -> DlAnswer {
    // SAFETY: each pointer is a slice's, aligned and with that slice's length in elements, so that
    // many can be read there and, of `list`, written. `list` is borrowed mutably, so it overlaps
    // none of the others. The function keeps no pointer and writes only `list`, with any words.
    unsafe {
        dl_history(
            words.as_ptr(),
            words.len(),
            bytes.as_ptr(),
            bytes.len(),
            path.as_ptr(),
            path.len(),
            list.as_mut_ptr(),
            list.len(),
        )
    }
}

/// Whether a node is live at a path.
pub(crate) fn contains_node(words: &[u32], bytes: &[u8], path: &[u8]) -> DlAnswer {
    // SAFETY: each pointer is a slice's, aligned and with that slice's length in elements, so that
    // many can be read there. The function writes nothing and keeps no pointer.
    unsafe {
        dl_contains_node(words.as_ptr(), words.len(), bytes.as_ptr(), bytes.len(), path.as_ptr(), path.len())
    }
}

/// Reads a box number.
pub(crate) fn read_box(packed: &[u8]) -> DlBox {
    // SAFETY: the pointer is a slice's, with that slice's length, so that many bytes can be read there.
    // The function writes nothing and keeps no pointer.
    unsafe { dl_read_box(packed.as_ptr(), packed.len()) }
}

/// Writes a box number into a slice.
pub(crate) fn write_box(value: u64, packed: &mut [u8]) -> DlAnswer {
    // SAFETY: the pointer is a slice's, with that slice's length, so that many bytes can be written
    // there. The function keeps no pointer and writes only these bytes.
    unsafe { dl_write_box(value, packed.as_mut_ptr(), packed.len()) }
}
