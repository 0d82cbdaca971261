//! Stand-in for `log`: messages are checked by the compiler and go nowhere.

/// Checks its message and discards it.
#[macro_export]
macro_rules! trace {
    ($($message:tt)+) => {
        if false {
            let _ = ::core::format_args!($($message)+);
        }
    };
}
