//! Stands in for the crate log: says nothing.
#[macro_export]
macro_rules! debug {
    ($($t:tt)*) => {
        { let _ = format_args!($($t)*); }
    };
}
#[macro_export]
macro_rules! info {
    ($($t:tt)*) => {
        { let _ = format_args!($($t)*); }
    };
}
