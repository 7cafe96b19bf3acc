//! The functions of include/paths_numbers.h.

use super::{Leaves, in_room};
use crate::{answer::Target, leaves::Int};

#[repr(C)]
struct Number {
    code: u32,
    value: u64,
}

#[repr(C)]
struct Integer {
    code: u32,
    value: i64,
}

#[repr(C)]
struct Written {
    number: u32,
    len: usize,
}

#[repr(C)]
struct Place {
    found: u32,
    place: usize,
}

#[repr(C)]
struct Reference {
    kind: u32,
    label_len: usize,
    path_len: usize,
}

// A slice is passed as its pointer and its length.
#[rustfmt::skip]
unsafe extern "C" {
    fn pn_lies_under(p: *const u8, pl: usize, b: *const u8, bl: usize) -> u32;
    fn pn_strip_base(p: *const u8, pl: usize, b: *const u8, bl: usize) -> usize;
    fn pn_good_path(p: *const u8, pl: usize) -> u32;
    fn pn_next_slash(p: *const u8, pl: usize, from: usize) -> Place;
    fn pn_path_len(p: *const u8, pl: usize, n: *const u8, nl: usize, u: *const u8, ul: usize) -> usize;
    fn pn_build_path(p: *const u8, pl: usize, n: *const u8, nl: usize, u: *const u8, ul: usize,
        o: *mut u8, ol: usize, at: usize) -> Written;
    fn pn_is_path(this: *const u8, tl: usize, p: *const u8, pl: usize, n: *const u8, nl: usize, u: *const u8, ul: usize) -> u32;
    fn pn_lies_under_path(this: *const u8, tl: usize, p: *const u8, pl: usize, n: *const u8, nl: usize, u: *const u8, ul: usize) -> u32;
    fn pn_path_lies_under(p: *const u8, pl: usize, n: *const u8, nl: usize, u: *const u8, ul: usize, b: *const u8, bl: usize) -> u32;
    fn pn_parse_int(t: *const u8, tl: usize, bits: u32) -> Number;
    fn pn_parse_i64(t: *const u8, tl: usize) -> Integer;
    fn pn_width(t: *const u8, tl: usize) -> Number;
    fn pn_expr_cell(num: i64, bits: u32) -> Number;
    fn pn_char_cell(ch: u32, bits: u32) -> Number;
    fn pn_prefix(op: u32, a: i64) -> Integer;
    fn pn_infix(op: u32, a: i64, b: i64) -> Integer;
    fn pn_conditional(a: i64, b: i64, c: i64) -> i64;
    fn pn_bytestring_len(t: *const u8, tl: usize) -> Written;
    fn pn_lower_bytestring(t: *const u8, tl: usize, o: *mut u8, ol: usize, at: usize) -> Written;
    fn pn_reference(r: *const u8, rl: usize) -> Reference;
}

impl Number {
    fn read(self) -> Result<u64, u32> {
        if self.code == 0 { Ok(self.value) } else { Err(self.code) }
    }
}

impl Integer {
    fn read(self) -> Result<i64, u32> {
        if self.code == 0 { Ok(self.value) } else { Err(self.code) }
    }
}

impl Written {
    fn read(self) -> Option<usize> {
        (self.number == 0).then_some(self.len)
    }
}

impl Place {
    /// What is neither 1 and a place nor 0 and 0 reads as a place that no path has.
    fn read(self) -> Option<usize> {
        match (self.found, self.place) {
            (0, 0) => None,
            (1, place) => Some(place),
            _ => Some(usize::MAX),
        }
    }
}

/// SAFETY of the calls: each slice is passed with its own length, and `out` is a buffer apart.
pub fn leaves() -> Leaves {
    Leaves {
        strip: Some(|path, base| unsafe {
            let (p, pl, b, bl) = (path.as_ptr(), path.len(), base.as_ptr(), base.len());
            (pn_lies_under(p, pl, b, bl) == 1).then(|| pl - pn_strip_base(p, pl, b, bl))
        }),
        join: Some(|parent, name, unit| {
            let (p, n, u) = (parent.as_ptr(), name.as_ptr(), unit.as_ptr());
            let (pl, nl, ul) = (parent.len(), name.len(), unit.len());
            in_room(unsafe { pn_path_len(p, pl, n, nl, u, ul) }, &|out| unsafe {
                pn_build_path(p, pl, n, nl, u, ul, out.as_mut_ptr(), out.len(), 2).read()
            })
        }),
        against_joined: Some(|path, parent, name, unit| unsafe {
            let (t, p, n, u) = (path.as_ptr(), parent.as_ptr(), name.as_ptr(), unit.as_ptr());
            let (tl, pl, nl, ul) = (path.len(), parent.len(), name.len(), unit.len());
            [
                pn_is_path(t, tl, p, pl, n, nl, u, ul) == 1,
                pn_lies_under_path(t, tl, p, pl, n, nl, u, ul) == 1,
                pn_path_lies_under(p, pl, n, nl, u, ul, t, tl) == 1,
            ]
        }),
        is_path: Some(|path| unsafe { pn_good_path(path.as_ptr(), path.len()) == 1 }),
        next_slash: Some(|path, from| unsafe { pn_next_slash(path.as_ptr(), path.len(), from).read() }),
        int: Some(|kind, text| unsafe {
            let unsigned = |bits| pn_parse_int(text.as_ptr(), text.len(), bits).read().map(i128::from);
            match kind {
                Int::U8 => unsigned(8),
                Int::U16 => unsigned(16),
                Int::U32 => unsigned(32),
                Int::U64 => unsigned(64),
                Int::I64 => pn_parse_i64(text.as_ptr(), text.len()).read().map(i128::from),
            }
        }),
        width: Some(|text| unsafe { pn_width(text.as_ptr(), text.len()).read().map(|bits| bits as u32) }),
        cell: Some(|bits, value| unsafe { pn_expr_cell(value, bits).read() }),
        character: Some(|bits, point| unsafe { pn_char_cell(point, bits).read() }),
        bytes: Some(|text| {
            let length = unsafe { pn_bytestring_len(text.as_ptr(), text.len()) };
            if length.number != 0 {
                // Writing it says the same, though there is room.
                let mut room = vec![7; text.len()];
                let written = unsafe {
                    pn_lower_bytestring(text.as_ptr(), text.len(), room.as_mut_ptr(), room.len(), 0)
                };
                return Err(if written.number == length.number { length.number } else { u32::MAX });
            }
            Ok(in_room(length.len, &|out| unsafe {
                pn_lower_bytestring(text.as_ptr(), text.len(), out.as_mut_ptr(), out.len(), 2).read()
            }))
        }),
        prefix: Some(|op, operand| unsafe { pn_prefix(op, operand).read() }),
        infix: Some(|op, left, right| unsafe { pn_infix(op, left, right).read() }),
        conditional: Some(|condition, left, right| unsafe { pn_conditional(condition, left, right) }),
        reference: Some(|raw| {
            let found = unsafe { pn_reference(raw.as_ptr(), raw.len()) };
            let path_at = if found.kind == 2 { 3 + found.label_len } else { 2 };
            (found.kind != 0).then(|| Target {
                form: found.kind,
                label: raw[2..][..found.label_len].to_vec(),
                path: raw[path_at..][..found.path_len].to_vec(),
            })
        }),
    }
}
