//! 02's sentences where they add to 01's, not taken from our sources.

pub mod boxes;
pub mod files;
pub mod level_2;
pub mod short_paths;
pub mod slashes;
