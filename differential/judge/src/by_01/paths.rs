//! Paths: stripping, joining, and row 9's form.

/// What is left of a path when its base is stripped.
pub fn strip<'a>(path: &'a [u8], base: &[u8]) -> Option<&'a [u8]> {
    if path == base {
        return Some(&path[path.len()..]);
    }
    if base == b"/" {
        return path.starts_with(b"/").then_some(path);
    }
    let rest = path.get(base.len()..)?;
    (&path[..base.len()] == base && rest.starts_with(b"/")).then_some(rest)
}

/// Whether a path lies at or under a base.
pub fn under(path: &[u8], base: &[u8]) -> bool {
    strip(path, base).is_some()
}

pub fn join(parent: &[u8], name: &[u8]) -> Vec<u8> {
    if name == b"/" {
        b"/".to_vec()
    } else if parent == b"/" {
        [b"/", name].concat()
    } else {
        [parent, b"/", name].concat()
    }
}

/// Row 9: empty, "/", or "/" before each of its nonempty components.
pub fn is_path(path: &[u8]) -> bool {
    match path {
        [] | [b'/'] => true,
        [b'/', components @ ..] => components.split(|byte| *byte == b'/').all(|name| !name.is_empty()),
        _ => false,
    }
}
