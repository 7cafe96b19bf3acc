//! The next "/" of a path (request 8).

/// "the first "/" from any given place on, and none only if there is none": of the places at or behind the given one that hold
/// a "/", the least.
pub fn next_slash(path: &[u8], from: usize) -> Option<usize> {
    let at_or_behind = path.iter().enumerate().filter(|(place, _)| *place >= from);
    at_or_behind.filter(|(_, byte)| **byte == b'/').map(|(place, _)| place).min()
}
