//! Stand-in for `profiling`: scopes are not measured.

/// Opens no scope.
#[macro_export]
macro_rules! scope {
    ($name:expr) => {};
}
