//! Stand-in for log: nothing is logged.

#[macro_export]
macro_rules! debug {
    ($($rest:tt)*) => {};
}

#[macro_export]
macro_rules! error {
    ($($rest:tt)*) => {};
}
