//! Stand-in: an error is its text.
#[derive(Debug)]
pub struct Error(pub String);

#[macro_export]
macro_rules! anyhow {
    ($($text:tt)*) => { $crate::Error(format!($($text)*)) };
}
