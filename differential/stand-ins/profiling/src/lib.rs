//! Stand-in for `profiling`: a scope measures nothing.

#[macro_export]
macro_rules! scope {
    ($($any:tt)*) => {};
}
