//! Stands in for the logging crate: the message is checked as an expression and dropped.

#[macro_export]
macro_rules! error {
    ($($part:tt)*) => {
        { let _ = || ::std::format!($($part)*); }
    };
}

#[macro_export]
macro_rules! info {
    ($($part:tt)*) => {
        { let _ = || ::std::format!($($part)*); }
    };
}
