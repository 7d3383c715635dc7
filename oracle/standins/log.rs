//! Stands in for the crate `log`: messages are checked as format strings and dropped.

#[macro_export]
macro_rules! warn {
    ($($message:tt)*) => {{ let _ = format_args!($($message)*); }};
}

#[macro_export]
macro_rules! debug {
    ($($message:tt)*) => {{ let _ = format_args!($($message)*); }};
}
