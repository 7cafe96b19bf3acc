//! Our side, called through C.
//!
//! `leaves` puts the exported functions of the lowest crate into a table, if there was a static
//! library with them when the judge was built (see build.rs). `library` does the same for lowering and
//! the queries, which have a library of their own, and `boxes` for box numbers, which are in it too. `served`
//! has lowering and the queries in a program of its own under valgrind.

#[cfg(ours_queries)]
mod definition_log;
#[cfg(ours)]
mod paths_numbers;
pub mod served;

use crate::{answer::Target, boxes::Boxes, leaves::Int, library::Library, slashes::NextSlash};

/// The leaves on one side of a comparison. Codes are 01's. A name has a unit address, empty where
/// there is none.
#[derive(Default)]
#[allow(clippy::type_complexity, reason = "each type says what a leaf takes and gives")]
pub struct Leaves {
    /// Where the stripped part begins in the path.
    pub strip: Option<fn(&[u8], &[u8]) -> Option<usize>>,
    /// The path of a parent, a name and its unit address.
    pub join: Option<fn(&[u8], &[u8], &[u8]) -> Vec<u8>>,
    /// Whether a path is that of a parent, a name and its unit address; lies at or under it; and
    /// whether that lies at or under the path.
    pub against_joined: Option<fn(&[u8], &[u8], &[u8], &[u8]) -> [bool; 3]>,
    pub is_path: Option<fn(&[u8]) -> bool>,
    /// Where the first "/" at or behind a place of a path stands.
    pub next_slash: Option<NextSlash>,
    pub int: Option<fn(Int, &[u8]) -> Result<i128, u32>>,
    pub width: Option<fn(&[u8]) -> Result<u32, u32>>,
    pub cell: Option<fn(u32, i64) -> Result<u64, u32>>,
    pub character: Option<fn(u32, u32) -> Result<u64, u32>>,
    pub bytes: Option<fn(&[u8]) -> Result<Vec<u8>, u32>>,
    pub prefix: Option<fn(u32, i64) -> Result<i64, u32>>,
    pub infix: Option<fn(u32, i64, i64) -> Result<i64, u32>>,
    pub conditional: Option<fn(i64, i64, i64) -> i64>,
    pub reference: Option<fn(&[u8]) -> Option<Target>>,
}

/// What a function writes behind two bytes of a buffer: with room to spare, and with just enough;
/// with one byte less it must say that there is no room, and write nothing.
///
/// `write` gives how many bytes it wrote, or none if there is no room.
pub fn in_room(length: usize, write: &dyn Fn(&mut [u8]) -> Option<usize>) -> Vec<u8> {
    let mut spare = vec![7; length + 4];
    let written = write(&mut spare).map(|length| written_alone(&spare, length));
    let mut enough = vec![7; length + 2];
    let again = write(&mut enough).map(|length| written_alone(&enough, length));
    let mut short = vec![7; length + 1];
    let refused = write(&mut short).is_none() && short.iter().all(|byte| *byte == 7);
    match written {
        Some(written) if again.as_ref() == Some(&written) && refused => written,
        _ => b"wrong room".to_vec(),
    }
}

/// The `length` bytes behind two, if all others still are 7.
fn written_alone(out: &[u8], length: usize) -> Vec<u8> {
    let (written, behind) = out[2..].split_at(length);
    if out[..2].iter().chain(behind).all(|byte| *byte == 7) {
        written.to_vec()
    } else {
        b"written outside".to_vec()
    }
}

/// Our leaves; fails if the library was not there when the judge was built.
pub fn leaves() -> Result<Leaves, String> {
    #[cfg(ours)]
    return Ok(paths_numbers::leaves());
    #[cfg(not(ours))]
    Err("our library of numbers and paths is not there: rt lib in crates/paths_numbers_c".to_owned())
}

/// Our lowering and queries; fails if the library was not there when the judge was built.
pub fn library() -> Result<Library, String> {
    #[cfg(ours_queries)]
    return Ok(definition_log::LIBRARY);
    #[cfg(not(ours_queries))]
    Err(NO_LIBRARY.to_owned())
}

/// Our box numbers; fails if the library was not there when the judge was built.
pub fn boxes() -> Result<Boxes, String> {
    #[cfg(ours_queries)]
    return Ok(definition_log::BOXES);
    #[cfg(not(ours_queries))]
    Err(NO_LIBRARY.to_owned())
}

#[cfg(not(ours_queries))]
const NO_LIBRARY: &str =
    "our library of lowering, queries and box numbers is not there: rt lib in crates/definition_log_c";
