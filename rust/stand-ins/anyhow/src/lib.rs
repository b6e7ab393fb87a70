//! Stand-in for the crate of this name: just what the original analyser uses of it. An error is
//! its message, which is all that the oracle reads.

use std::fmt;

pub struct Error(String);

pub type Result<T, E = Error> = std::result::Result<T, E>;

impl Error {
    pub fn msg(message: impl fmt::Display) -> Error {
        Error(message.to_string())
    }
}

impl fmt::Display for Error {
    fn fmt(&self, f: &mut fmt::Formatter<'_>) -> fmt::Result {
        f.write_str(&self.0)
    }
}

impl fmt::Debug for Error {
    fn fmt(&self, f: &mut fmt::Formatter<'_>) -> fmt::Result {
        f.write_str(&self.0)
    }
}

impl<E: std::error::Error> From<E> for Error {
    fn from(error: E) -> Error {
        Error::msg(error)
    }
}

#[macro_export]
macro_rules! anyhow {
    ($message:literal $(,)?) => { $crate::Error::msg(format!($message)) };
    ($error:expr $(,)?) => { $crate::Error::msg($error) };
    ($format:expr, $($argument:tt)*) => { $crate::Error::msg(format!($format, $($argument)*)) };
}

#[macro_export]
macro_rules! bail {
    ($($argument:tt)*) => { return Err($crate::anyhow!($($argument)*)) };
}
