//! Stands in for log: every line is dropped, and its arguments with it.

#[macro_export]
macro_rules! trace {
    ($($rest:tt)*) => {{}};
}

#[macro_export]
macro_rules! warn {
    ($($rest:tt)*) => {{}};
}

#[macro_export]
macro_rules! error {
    ($($rest:tt)*) => {{}};
}
