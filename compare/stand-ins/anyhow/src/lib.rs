//! Stands for anyhow: an error that is a message.
use std::fmt;

pub struct Error(pub String);

pub type Result<T> = std::result::Result<T, Error>;

impl fmt::Debug for Error {
    fn fmt(&self, f: &mut fmt::Formatter<'_>) -> fmt::Result {
        f.write_str(&self.0)
    }
}

impl fmt::Display for Error {
    fn fmt(&self, f: &mut fmt::Formatter<'_>) -> fmt::Result {
        f.write_str(&self.0)
    }
}

#[macro_export]
macro_rules! anyhow {
    ($($message:tt)*) => { $crate::Error(format!($($message)*)) };
}

#[macro_export]
macro_rules! bail {
    ($($message:tt)*) => { return Err($crate::anyhow!($($message)*)) };
}
